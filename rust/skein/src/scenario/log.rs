//! The words about the log.
use super::arguments::{number, Arguments};
use super::call::{Call, LogCall};
use super::forms::MOST_OF_FILE;
use super::text::Text;
use super::Bad;

/// The most room of a log, so that no line takes long.
const MOST_ROOM: usize = 1 << 20;

/// Reads the words after `log`: `none`, or the room and how much of it counts as written.
pub fn log(arguments: &mut Arguments) -> Result<Call, Bad> {
    let word = arguments.word()?;
    if word == "none" {
        return Ok(Call::Log(LogCall::End));
    }
    let room = usize::try_from(number(word, "a room in bytes, or `none`")?).ok();
    let room = room.filter(|room| *room <= MOST_ROOM);
    let room =
        room.ok_or_else(|| Bad::word(word, format!("a room of at most {MOST_ROOM} bytes")))?;
    let used = arguments.next().map(|word| number(word, "used bytes"));
    let used = used.transpose()?.unwrap_or(0);
    Ok(Call::Log(LogCall::Start { room, used }))
}

pub fn cut(arguments: &mut Arguments) -> Result<Call, Bad> {
    let length = arguments.number("bytes")?;
    Ok(Call::Log(LogCall::Cut { length }))
}

pub fn written(_: &mut Arguments) -> Result<Call, Bad> {
    Ok(Call::Log(LogCall::Read))
}

pub fn restart(_: &mut Arguments) -> Result<Call, Bad> {
    Ok(Call::Log(LogCall::Restart))
}

/// Reads the bytes after `replay`; without them it is the log that is replayed.
pub fn replay(arguments: &mut Arguments) -> Result<Call, Bad> {
    let Some(word) = arguments.next() else {
        return Ok(Call::Log(LogCall::Replay { bytes: None }));
    };
    let Some(bytes) = word
        .strip_prefix("bytes=")
        .filter(|bytes| !bytes.is_empty())
    else {
        return Err(Bad::word(
            word,
            "bytes behind `bytes=`, or the end of the line for the log",
        ));
    };
    let bytes = Some(Text::parse_within(bytes, MOST_OF_FILE)?);
    Ok(Call::Log(LogCall::Replay { bytes }))
}
