//! A queue of access requests.
use crate::cells::row;
use crate::errno::Errno;
use crate::numbers::{Entry, Slot, Thread};
use crate::refusal::{Judged, Refusal};
use crate::rights::AccessFs;
use crate::tables::Tables;
use crate::text::ParseError;
use core::fmt;
use core::str::FromStr;
use skeinrabbit_sys as sys;
use sys::layout::{ANSWER_WIDTH, MAX_SLOTS, REQUEST_WIDTH};

/// A queue of eight slots, each of which holds at most one waiting access request.
///
/// [`Queue::post`] puts a request into a slot, where it waits. [`Queue::turn`] answers one: that of the next waiting slot after the
/// one served last, going round. So a slot that waits is answered by one of the next eight turns, whatever is posted meanwhile. The
/// answer is that of [`Tables::judge`] at the turn, not at the post, and stays in its slot until another turn answers there.
///
/// Before anything else both answer EIO where the queue is not sound: a cursor above 7, or a state that is none. It is so only if
/// something other than this crate wrote its cells.
///
/// ```
/// # use skeinrabbit::*;
/// let mut tables = Tables::new(Level::LATEST)?;
/// let file = tables.create(Thread::MAIN, Entry::ROOT, Kind::REGULAR, "file")?;
/// let worker = tables.clone_thread(Thread::MAIN)?;
/// tables.set_no_new_privs(worker)?;
///
/// let mut queue = Queue::new();
/// let [first, second] = [0, 1].map(Slot::new);
/// queue.post(second, worker, file, AccessFs::WRITE_FILE)?;
/// queue.post(first, Thread::MAIN, file, AccessFs::WRITE_FILE)?;
///
/// assert_eq!(queue.turn(&tables), Ok(Turn::Served(first)));
/// assert_eq!(queue.answer(first).map(|judged| judged.answer), Some(Ok(())));
/// assert_eq!(queue.answer(second), None); // it waits
///
/// let rights = AccessFs::WRITE_FILE;
/// let layer = tables.ruleset().handle_fs(rights).create()?.restrict(worker)?;
/// assert_eq!(queue.turn(&tables), Ok(Turn::Served(second)));
/// let denied = Err(Refusal::Denied { layer, rights });
/// assert_eq!(queue.answer(second).map(|judged| judged.answer), Some(denied));
/// assert_eq!(queue.turn(&tables), Ok(Turn::Idle));
/// # Ok::<(), Errno>(())
/// ```
#[derive(Clone, PartialEq, Eq)]
pub struct Queue {
    cells: QueueCells,
}

/// What a turn did.
#[derive(Clone, Copy, Debug, PartialEq, Eq)]
#[must_use]
pub enum Turn {
    /// It answered the request that waited in this slot.
    Served(Slot),
    /// No slot waits, and nothing changed.
    Idle,
}

impl Turn {
    /// The slot that was served.
    pub fn slot(self) -> Option<Slot> {
        match self {
            Turn::Served(slot) => Some(slot),
            Turn::Idle => None,
        }
    }
}

impl Queue {
    /// A queue in which nothing waits. Of all slots, slot 0 is the next.
    pub fn new() -> Self {
        Self::from_cells(QueueCells::FRESH)
    }

    /// Puts an access request into a slot, where it waits. The slot may hold an answer, which then stays in its cells, but is no
    /// longer the answer of a slot that waits: [`Queue::answer`] gives none until a turn has served it.
    ///
    /// Any request is taken. Whether thread and entry are live and what the rights are is asked at the turn.
    ///
    /// Refusals, in order: queue not sound, EIO; slot above 7, EINVAL; a request that waits in the slot, EAGAIN.
    ///
    /// ```
    /// # use skeinrabbit::*;
    /// let mut queue = Queue::new();
    /// let mut post = |slot| queue.post(Slot::new(slot), Thread::MAIN, Entry::ROOT, AccessFs::READ_DIR);
    /// assert_eq!(post(7), Ok(()));
    /// assert_eq!(post(7), Err(Errno::EAGAIN));
    /// assert_eq!(post(8), Err(Errno::EINVAL));
    /// ```
    pub fn post(
        &mut self,
        slot: Slot,
        thread: Thread,
        entry: Entry,
        rights: AccessFs,
    ) -> Result<(), Errno> {
        let (thread, entry) = (thread.number(), entry.number());
        let raw = sys::post(
            &mut self.cells.raw(),
            slot.number(),
            thread,
            entry,
            rights.bits(),
        );
        Errno::answer(raw).map(drop)
    }

    /// Answers the next waiting slot after the one served last, by these tables. Where they are not sound, EIO is the slot's answer:
    /// the turn serves it all the same.
    ///
    /// Refusals: queue not sound, EIO.
    ///
    /// ```
    /// # use skeinrabbit::*;
    /// let mut queue = Queue::new();
    /// let slot = Slot::new(4);
    /// queue.post(slot, Thread::MAIN, Entry::ROOT, AccessFs::READ_DIR)?;
    /// let damaged = Tables::from_cells(Cells::zeroed());
    /// assert_eq!(queue.turn(&damaged), Ok(Turn::Served(slot)));
    /// let refused = queue.answer(slot).map(|judged| judged.answer);
    /// assert_eq!(refused, Some(Err(Refusal::Other(Errno::EIO))));
    /// # Ok::<(), Errno>(())
    /// ```
    pub fn turn(&mut self, tables: &Tables) -> Result<Turn, Errno> {
        let raw = sys::turn(tables.shared(), &mut self.cells.raw());
        let number = Errno::answer(raw)?;
        let slot = SLOTS.contains(&number).then(|| Slot::new(number));
        Ok(slot.map_or(Turn::Idle, Turn::Served))
    }

    /// The answer in a slot that is answered; none where the slot is empty or waits.
    pub fn answer(&self, slot: Slot) -> Option<Judged> {
        let row = self.slot(slot)?;
        (row.state == SlotState::Answered).then_some(row.kept)
    }

    /// A slot, if its number is at most 7.
    ///
    /// ```
    /// # use skeinrabbit::*;
    /// let mut queue = Queue::new();
    /// queue.post(Slot::new(2), Thread::MAIN, Entry::ROOT, AccessFs::READ_DIR)?;
    /// let row = queue.slot(Slot::new(2)).expect("slot 2");
    /// assert_eq!(row.state, SlotState::Waiting);
    /// assert_eq!((row.thread, row.entry, row.rights), (Thread::MAIN, Entry::ROOT, AccessFs::READ_DIR));
    /// assert_eq!(queue.slot(Slot::new(8)), None);
    /// # Ok::<(), Errno>(())
    /// ```
    pub fn slot(&self, slot: Slot) -> Option<SlotRow> {
        let number = slot.number();
        let [thread, entry, rights] = row::<REQUEST_WIDTH>(&self.cells.requests, number)?;
        let [state] = row::<1>(&self.cells.states, number)?;
        let answer = row::<ANSWER_WIDTH>(&self.cells.answers, number)?;
        Some(SlotRow {
            slot,
            state: SlotState::from_cell(state),
            thread: Thread::new(thread),
            entry: Entry::new(entry),
            rights: AccessFs::from_bits(rights),
            kept: judged(answer),
        })
    }

    /// The eight slots, in order.
    pub fn slots(&self) -> impl Iterator<Item = SlotRow> + '_ {
        SLOTS.filter_map(|number| self.slot(Slot::new(number)))
    }

    /// A queue with these cells, such as those that [`Queue::into_cells`] gave. Each call tests them.
    ///
    /// ```
    /// # use skeinrabbit::*;
    /// let mut cells = Queue::new().into_cells();
    /// cells.cursor = 8;
    /// let tables = Tables::new(Level::LATEST)?;
    /// assert_eq!(Queue::from_cells(cells).turn(&tables), Err(Errno::EIO));
    /// # Ok::<(), Errno>(())
    /// ```
    pub fn from_cells(cells: QueueCells) -> Self {
        Self { cells }
    }

    /// The cells, to be kept somewhere.
    pub fn into_cells(self) -> QueueCells {
        self.cells
    }

    /// The cells, to be read.
    pub fn cells(&self) -> &QueueCells {
        &self.cells
    }
}

impl Default for Queue {
    fn default() -> Self {
        Self::new()
    }
}

impl fmt::Debug for Queue {
    fn fmt(&self, f: &mut fmt::Formatter<'_>) -> fmt::Result {
        let mut queue = f.debug_struct("Queue");
        queue.field("cursor", &self.cells.cursor);
        for row in self.slots() {
            queue.field("slot", &row);
        }
        queue.finish()
    }
}

/// The numbers of the slots.
const SLOTS: core::ops::Range<u64> = 0..MAX_SLOTS as u64;

/// The answer of a slot's cells; one that no access gives counts as EIO.
fn judged([number, layer, rights, entries_read]: [u64; ANSWER_WIDTH]) -> Judged {
    let errno = u16::try_from(number).ok().and_then(Errno::new);
    let answer = match (number, errno) {
        (0, _) => Ok(()),
        (_, Some(errno)) => Err(Refusal::named(errno, layer, AccessFs::from_bits(rights))),
        (_, None) => Err(Errno::EIO.into()),
    };
    Judged {
        answer,
        entries_read,
    }
}

/// A slot of a queue.
#[derive(Clone, Copy, Debug, PartialEq, Eq)]
pub struct SlotRow {
    /// Its number.
    pub slot: Slot,
    /// Whether it waits or is answered.
    pub state: SlotState,
    /// The thread of the request that was posted last.
    pub thread: Thread,
    /// The entry of that request.
    pub entry: Entry,
    /// The rights that it asks for.
    pub rights: AccessFs,
    /// What the cells of the answer hold, whatever the state: the last answer, also while another request waits, and before the first
    /// one zeros, which read as a success. Decide by [`Queue::answer`].
    pub kept: Judged,
}

/// Whether a slot waits or is answered.
#[derive(Clone, Copy, Debug, PartialEq, Eq)]
pub enum SlotState {
    /// Nothing was posted yet.
    Empty,
    /// A request waits for its turn.
    Waiting,
    /// A turn has answered the request.
    Answered,
    /// A number that is no state: the queue is not sound.
    Unknown(u64),
}

impl SlotState {
    fn from_cell(cell: u64) -> Self {
        match cell {
            0 => SlotState::Empty,
            1 => SlotState::Waiting,
            2 => SlotState::Answered,
            other => SlotState::Unknown(other),
        }
    }
}

impl fmt::Display for SlotState {
    fn fmt(&self, f: &mut fmt::Formatter<'_>) -> fmt::Result {
        match self {
            SlotState::Empty => f.pad("empty"),
            SlotState::Waiting => f.pad("waiting"),
            SlotState::Answered => f.pad("answered"),
            SlotState::Unknown(cell) => cell.fmt(f),
        }
    }
}

/// The cells of a queue, each part of its right length and with any contents.
#[derive(Clone, Debug, PartialEq, Eq)]
pub struct QueueCells {
    /// 8 rows: thread, entry, rights.
    pub requests: [u64; REQUEST_WIDTH * MAX_SLOTS],
    /// For each slot 0 empty, 1 waiting, 2 answered.
    pub states: [u64; MAX_SLOTS],
    /// 8 rows: error number or 0, layer that refused + 1 or 0, its rights, number of entries read.
    pub answers: [u64; ANSWER_WIDTH * MAX_SLOTS],
    /// The slot that was served last, at first 7.
    pub cursor: u64,
}

impl QueueCells {
    const FRESH: QueueCells = QueueCells {
        requests: [0; REQUEST_WIDTH * MAX_SLOTS],
        states: [0; MAX_SLOTS],
        answers: [0; ANSWER_WIDTH * MAX_SLOTS],
        cursor: SLOTS.end - 1,
    };

    /// Writes a cell of a part, if the part has it. Answers whether it did.
    ///
    /// ```
    /// # use skeinrabbit::*;
    /// let mut cells = Queue::new().into_cells();
    /// assert!(cells.set(QueuePart::States, 7, 1));
    /// assert!(!cells.set(QueuePart::States, 8, 1));
    /// assert!(cells.set(QueuePart::Cursor, 0, 3));
    /// ```
    pub fn set(&mut self, part: QueuePart, cell: usize, value: u64) -> bool {
        let cells: &mut [u64] = match part {
            QueuePart::Requests => &mut self.requests,
            QueuePart::States => &mut self.states,
            QueuePart::Answers => &mut self.answers,
            QueuePart::Cursor => core::slice::from_mut(&mut self.cursor),
        };
        match cells.get_mut(cell) {
            Some(cell) => {
                *cell = value;
                true
            }
            None => false,
        }
    }

    fn raw(&mut self) -> sys::QueueCells<'_> {
        sys::QueueCells {
            requests: &mut self.requests,
            states: &mut self.states,
            answers: &mut self.answers,
            cursor: &mut self.cursor,
        }
    }
}

/// One of the parts of a queue.
#[derive(Clone, Copy, Debug, PartialEq, Eq)]
pub enum QueuePart {
    /// What was posted.
    Requests,
    /// Whether each slot waits or is answered.
    States,
    /// What was answered.
    Answers,
    /// The slot that was served last: one cell.
    Cursor,
}

impl QueuePart {
    /// The four parts, in their order.
    pub const ALL: [QueuePart; 4] = [
        QueuePart::Requests,
        QueuePart::States,
        QueuePart::Answers,
        QueuePart::Cursor,
    ];

    /// The name.
    pub fn name(self) -> &'static str {
        match self {
            QueuePart::Requests => "requests",
            QueuePart::States => "states",
            QueuePart::Answers => "answers",
            QueuePart::Cursor => "cursor",
        }
    }

    /// The number of cells.
    pub fn size(self) -> usize {
        match self {
            QueuePart::Requests => REQUEST_WIDTH * MAX_SLOTS,
            QueuePart::States => MAX_SLOTS,
            QueuePart::Answers => ANSWER_WIDTH * MAX_SLOTS,
            QueuePart::Cursor => 1,
        }
    }
}

/// Reads a part's name.
impl FromStr for QueuePart {
    type Err = ParseError;

    fn from_str(text: &str) -> Result<Self, ParseError> {
        let named = Self::ALL.into_iter().find(|part| part.name() == text);
        let expected = "a part of a queue: requests, states, answers or cursor";
        named.ok_or_else(|| ParseError::new(text, expected))
    }
}
