//! How each call is written.
use super::arguments::{number, Arguments};
use super::attribute::create_ruleset;
use super::call::{
    AskedCall, Call, FileOperand, Other, Place, PolicyCall, QueueCall, RulesetCall, ThreadCall,
    TreeCall,
};
use super::log::{cut, log, replay, restart, written};
use super::names::{Operand, Space};
use super::poke::{poke, poke_name};
use super::report::Sort;
use super::text::Text;
use super::Bad;
use crate::policy::LONGEST_FILE;
use crate::words::one_of;
use skeinrabbit::{parse_number, Layer, Level, Scopes, Slot};

/// A call as it is written.
pub struct Form {
    /// The call and its arguments.
    usage: &'static str,
    /// What a success makes, and so what its name stands for.
    pub makes: Option<Space>,
    /// What it reports beside its answer, if it has a verdict.
    pub reports: Option<Sort>,
    read: Read,
}

type Read = fn(&mut Arguments) -> Result<Call, Bad>;

const fn form(usage: &'static str, makes: Option<Space>, read: Read) -> Form {
    Form {
        usage,
        makes,
        reports: None,
        read,
    }
}

/// A call with a verdict.
const fn judged(usage: &'static str, makes: Option<Space>, sort: Sort, read: Read) -> Form {
    Form {
        reports: Some(sort),
        ..form(usage, makes, read)
    }
}

const CREATE_RULESET: &str =
    "create_ruleset [fs=RIGHTS] [net=RIGHTS] [scope=RIGHTS] [size=N] [flags=N]` \
    or `create_ruleset hex=BYTES [flags=N]";

const CREATE: &str = "create THREAD DIRECTORY KIND NAME` or `create THREAD PATH KIND";
const LINK: &str = "link THREAD SOURCE DIRECTORY NAME` or `link THREAD SOURCE PATH";
const RENAME: &str = "rename THREAD SOURCE DIRECTORY NAME` or `rename THREAD SOURCE PATH";
const EXCHANGE: &str = "exchange THREAD SOURCE DIRECTORY ENTRY` or `exchange THREAD SOURCE PATH";

const LOG: &str = "log ROOM [USED]` or `log none";

static FORMS: [Form; 36] = [
    form("fresh LEVEL", None, fresh),
    form(CREATE_RULESET, Some(Space::Ruleset), create_ruleset),
    form("close_ruleset RULESET", None, close_ruleset),
    form(
        "add_path_rule RULESET ENTRY RIGHTS [FLAGS]",
        None,
        add_path_rule,
    ),
    form(
        "add_port_rule RULESET PORT RIGHTS [FLAGS]",
        None,
        add_port_rule,
    ),
    judged(
        "find_policy STOCK SITE NAME",
        None,
        Sort::Policy,
        find_policy,
    ),
    judged(
        "apply_policy STOCK SITE NAME",
        Some(Space::Ruleset),
        Sort::Policy,
        apply_policy,
    ),
    judged(
        "write_policy RULESET NAME [room=N]",
        None,
        Sort::Written,
        write_policy,
    ),
    form("restrict THREAD RULESET [FLAGS]", None, restrict),
    form("layer_rules LAYER", None, layer_rules),
    form("clone THREAD", Some(Space::Thread), clone),
    form("end THREAD", None, end),
    form("set_no_new_privs THREAD", None, set_no_new_privs),
    form("set_admin THREAD ON", None, set_admin),
    judged("access THREAD ENTRY RIGHTS", None, Sort::Access, access),
    judged("port THREAD PORT RIGHTS", None, Sort::Port, port),
    form("signal THREAD TARGET", None, signal),
    form("abstract_socket THREAD TARGET", None, abstract_socket),
    judged(CREATE, Some(Space::Entry), Sort::Change, create),
    judged("remove THREAD ENTRY", None, Sort::Change, remove),
    judged(LINK, Some(Space::Entry), Sort::Change, link),
    judged(RENAME, None, Sort::Change, rename),
    judged(EXCHANGE, None, Sort::Change, exchange),
    form("lookup PATH", Some(Space::Entry), lookup),
    judged("component PATH PLACE", None, Sort::Component, component),
    form("post SLOT THREAD ENTRY RIGHTS", None, post),
    judged("turn", None, Sort::Slot, turn),
    judged("slot SLOT", None, Sort::Slot, slot),
    form("fresh_queue", None, fresh_queue),
    form(LOG, None, log),
    form("cut BYTES", None, cut),
    judged("written", None, Sort::Written, written),
    form("restart", None, restart),
    form("replay [bytes=TEXT]", None, replay),
    form("poke_name ENTRY NAME [COUNT]", None, poke_name),
    form("poke TABLE CELL VALUE [COUNT STEP RISE]", None, poke),
];

const ASK: &str = "ask";
const ASK_LINK: &str = "ask link THREAD SOURCE DIRECTORY NAME` or `ask link THREAD SOURCE PATH";
const ASK_RENAME: &str =
    "ask rename THREAD SOURCE DIRECTORY NAME` or `ask rename THREAD SOURCE PATH";
const ASK_EXCHANGE: &str =
    "ask exchange THREAD SOURCE DIRECTORY ENTRY` or `ask exchange THREAD SOURCE PATH";

/// The calls that may stand after `ask`.
static ASKED: [Form; 5] = [
    judged(
        "ask access THREAD ENTRY RIGHTS",
        None,
        Sort::Change,
        ask_access,
    ),
    judged("ask port THREAD PORT RIGHTS", None, Sort::Port, ask_port),
    judged(ASK_LINK, None, Sort::Change, ask_link),
    judged(ASK_RENAME, None, Sort::Change, ask_rename),
    judged(ASK_EXCHANGE, None, Sort::Change, ask_exchange),
];

impl Form {
    /// The call's name.
    pub fn name(&self) -> &'static str {
        self.usage.split(' ').next().unwrap_or_default()
    }

    /// The name of the call that is asked about.
    fn asked(&self) -> &'static str {
        self.usage.split(' ').nth(1).unwrap_or_default()
    }
}

/// The form of a call, by its name.
fn form_of(name: &str, arguments: &mut Arguments) -> Result<&'static Form, Bad> {
    if name != ASK {
        let form = FORMS.iter().find(|form| form.name() == name);
        let names = FORMS.iter().map(Form::name).chain([ASK, "repeat"]);
        return form.ok_or_else(|| unknown("a call", name, names));
    }
    let Some(asked) = arguments.next() else {
        let expected = "access, port, link, rename or exchange after `ask`";
        return Err(Bad::new("no call", expected));
    };
    let form = ASKED.iter().find(|form| form.asked() == asked);
    let names = ASKED.iter().map(Form::asked);
    form.ok_or_else(|| unknown("a call that is asked about", asked, names))
}

/// A word that is no name of what was expected.
fn unknown(what: &str, word: &str, names: impl Iterator<Item = &'static str>) -> Bad {
    Bad::word(word, one_of(what, word, &names.collect::<Vec<&str>>()))
}

/// Reads a call and its arguments.
pub fn parse(arguments: &mut Arguments) -> Result<(&'static Form, Call), Bad> {
    let Some(name) = arguments.next() else {
        return Err(Bad::new("no call", "a call before `->` or `=>`"));
    };
    let form = form_of(name, arguments)?;
    arguments.set_usage(form.usage);
    let call = (form.read)(arguments)?;
    arguments.end()?;
    Ok((form, call))
}

fn fresh(arguments: &mut Arguments) -> Result<Call, Bad> {
    let level = Level::new(arguments.number("a level")?);
    Ok(Call::Fresh { level })
}

fn close_ruleset(arguments: &mut Arguments) -> Result<Call, Bad> {
    let ruleset = arguments.ruleset()?;
    Ok(Call::Ruleset(RulesetCall::Close { ruleset }))
}

fn add_path_rule(arguments: &mut Arguments) -> Result<Call, Bad> {
    Ok(Call::Ruleset(RulesetCall::AddPath {
        ruleset: arguments.ruleset()?,
        entry: arguments.entry()?,
        rights: arguments.value()?,
        flags: arguments.flags()?,
    }))
}

fn add_port_rule(arguments: &mut Arguments) -> Result<Call, Bad> {
    Ok(Call::Ruleset(RulesetCall::AddPort {
        ruleset: arguments.ruleset()?,
        port: arguments.number("a port")?,
        rights: arguments.value()?,
        flags: arguments.flags()?,
    }))
}

fn find_policy(arguments: &mut Arguments) -> Result<Call, Bad> {
    policy(arguments, false)
}

fn apply_policy(arguments: &mut Arguments) -> Result<Call, Bad> {
    policy(arguments, true)
}

fn policy(arguments: &mut Arguments, apply: bool) -> Result<Call, Bad> {
    Ok(Call::Policy(PolicyCall {
        stock: file(arguments)?,
        site: file(arguments)?,
        name: arguments.text()?,
        apply,
    }))
}

/// More bytes than any policy file may have.
pub const MOST_OF_FILE: usize = 65_536;

/// A policy file by its bytes or by its name.
fn file(arguments: &mut Arguments) -> Result<FileOperand, Bad> {
    let word = arguments.word()?;
    match (word, word.strip_prefix("bytes=")) {
        ("none", _) => Text::parse("\"\"").map(FileOperand::Bytes),
        (_, Some("")) => Err(Bad::word(word, "bytes behind `bytes=`, or `none`")),
        (_, Some(bytes)) => Text::parse_within(bytes, MOST_OF_FILE).map(FileOperand::Bytes),
        (name, None) => Text::parse(name).map(FileOperand::Name),
    }
}

fn write_policy(arguments: &mut Arguments) -> Result<Call, Bad> {
    Ok(Call::WritePolicy {
        ruleset: arguments.ruleset()?,
        name: arguments.text()?,
        room: arguments.next().map_or(Ok(LONGEST_FILE), room)?,
    })
}

/// How many bytes a file may be written into.
fn room(word: &str) -> Result<usize, Bad> {
    let count = word.strip_prefix("room=").and_then(parse_number);
    let count = count.and_then(|count| usize::try_from(count).ok());
    count
        .filter(|count| *count <= MOST_OF_FILE)
        .ok_or_else(|| Bad::word(word, format!("`room=` and at most {MOST_OF_FILE} bytes")))
}

fn restrict(arguments: &mut Arguments) -> Result<Call, Bad> {
    Ok(Call::Ruleset(RulesetCall::Restrict {
        thread: arguments.thread()?,
        ruleset: arguments.ruleset()?,
        flags: arguments.flags()?,
    }))
}

fn layer_rules(arguments: &mut Arguments) -> Result<Call, Bad> {
    let layer = Layer::new(arguments.number("a layer")?);
    Ok(Call::LayerRules { layer })
}

fn clone(arguments: &mut Arguments) -> Result<Call, Bad> {
    let thread = arguments.thread()?;
    let call = ThreadCall::Clone;
    Ok(Call::Thread { thread, call })
}

fn end(arguments: &mut Arguments) -> Result<Call, Bad> {
    let thread = arguments.thread()?;
    let call = ThreadCall::End;
    Ok(Call::Thread { thread, call })
}

fn set_no_new_privs(arguments: &mut Arguments) -> Result<Call, Bad> {
    let thread = arguments.thread()?;
    let call = ThreadCall::SetNoNewPrivs;
    Ok(Call::Thread { thread, call })
}

fn set_admin(arguments: &mut Arguments) -> Result<Call, Bad> {
    let thread = arguments.thread()?;
    let on = match arguments.word()? {
        "on" => true,
        "off" => false,
        word => {
            let on = parse_number(word);
            on.ok_or_else(|| Bad::word(word, "`on`, `off` or a number"))? != 0
        }
    };
    let call = ThreadCall::SetAdmin { on };
    Ok(Call::Thread { thread, call })
}

fn access(arguments: &mut Arguments) -> Result<Call, Bad> {
    let thread = arguments.thread()?;
    let call = ThreadCall::Access {
        entry: arguments.entry()?,
        rights: arguments.value()?,
    };
    Ok(Call::Thread { thread, call })
}

fn port(arguments: &mut Arguments) -> Result<Call, Bad> {
    let thread = arguments.thread()?;
    let call = ThreadCall::Port {
        port: arguments.number("a port")?,
        rights: arguments.value()?,
    };
    Ok(Call::Thread { thread, call })
}

fn signal(arguments: &mut Arguments) -> Result<Call, Bad> {
    reach(arguments, Scopes::SIGNAL)
}

fn abstract_socket(arguments: &mut Arguments) -> Result<Call, Bad> {
    reach(arguments, Scopes::ABSTRACT_UNIX_SOCKET)
}

fn reach(arguments: &mut Arguments, scope: Scopes) -> Result<Call, Bad> {
    let thread = arguments.thread()?;
    let target = arguments.thread()?;
    let call = ThreadCall::Reach { scope, target };
    Ok(Call::Thread { thread, call })
}

fn create(arguments: &mut Arguments) -> Result<Call, Bad> {
    let thread = arguments.thread()?;
    let word = arguments.word()?;
    let kind = arguments.value()?;
    let place = place(arguments, word)?;
    let call = TreeCall::Create { place, kind };
    Ok(Call::Tree { thread, call })
}

/// The place that a word and, where it is a directory, the next one give.
fn place(arguments: &mut Arguments, word: &str) -> Result<Place, Bad> {
    let directory = arguments.entry_of(word)?;
    match (arguments.next(), directory) {
        (Some(name), directory) => {
            let name = Text::parse(name)?;
            Ok(Place::In { directory, name })
        }
        (None, Operand::Path(path)) => Ok(Place::Path(path)),
        (None, _) => Err(arguments.too_few()),
    }
}

fn remove(arguments: &mut Arguments) -> Result<Call, Bad> {
    let thread = arguments.thread()?;
    let call = TreeCall::Remove {
        entry: arguments.entry()?,
    };
    Ok(Call::Tree { thread, call })
}

/// The source of a link or a rename, and where it is put.
fn moved(arguments: &mut Arguments) -> Result<(Operand, Place), Bad> {
    let source = arguments.entry()?;
    let word = arguments.word()?;
    Ok((source, place(arguments, word)?))
}

fn link(arguments: &mut Arguments) -> Result<Call, Bad> {
    let thread = arguments.thread()?;
    let (source, place) = moved(arguments)?;
    let call = TreeCall::Link { source, place };
    Ok(Call::Tree { thread, call })
}

fn rename(arguments: &mut Arguments) -> Result<Call, Bad> {
    let thread = arguments.thread()?;
    let (source, place) = moved(arguments)?;
    let call = TreeCall::Rename { source, place };
    Ok(Call::Tree { thread, call })
}

fn exchange(arguments: &mut Arguments) -> Result<Call, Bad> {
    let thread = arguments.thread()?;
    let (source, other) = exchanged(arguments)?;
    let call = TreeCall::Exchange { source, other };
    Ok(Call::Tree { thread, call })
}

/// The source of an exchange, and the other entry.
fn exchanged(arguments: &mut Arguments) -> Result<(Operand, Other), Bad> {
    let source = arguments.entry()?;
    let directory = arguments.entry()?;
    let other = match (arguments.next(), directory) {
        (Some(word), directory) => {
            let entry = arguments.entry_of(word)?;
            Other::In { directory, entry }
        }
        (None, Operand::Path(path)) => Other::Path(path),
        (None, _) => return Err(arguments.too_few()),
    };
    Ok((source, other))
}

fn ask_access(arguments: &mut Arguments) -> Result<Call, Bad> {
    let thread = arguments.thread()?;
    let call = AskedCall::Access {
        entry: arguments.entry()?,
        rights: arguments.value()?,
    };
    Ok(Call::Ask { thread, call })
}

fn ask_port(arguments: &mut Arguments) -> Result<Call, Bad> {
    let thread = arguments.thread()?;
    let call = AskedCall::Port {
        port: arguments.number("a port")?,
        rights: arguments.value()?,
    };
    Ok(Call::Ask { thread, call })
}

fn ask_link(arguments: &mut Arguments) -> Result<Call, Bad> {
    let thread = arguments.thread()?;
    let (source, place) = moved(arguments)?;
    let call = AskedCall::Link { source, place };
    Ok(Call::Ask { thread, call })
}

fn ask_rename(arguments: &mut Arguments) -> Result<Call, Bad> {
    let thread = arguments.thread()?;
    let (source, place) = moved(arguments)?;
    let call = AskedCall::Rename { source, place };
    Ok(Call::Ask { thread, call })
}

fn ask_exchange(arguments: &mut Arguments) -> Result<Call, Bad> {
    let thread = arguments.thread()?;
    let (source, other) = exchanged(arguments)?;
    let call = AskedCall::Exchange { source, other };
    Ok(Call::Ask { thread, call })
}

fn lookup(arguments: &mut Arguments) -> Result<Call, Bad> {
    let path = arguments.text()?;
    Ok(Call::Lookup { path })
}

fn component(arguments: &mut Arguments) -> Result<Call, Bad> {
    Ok(Call::Component {
        path: arguments.text()?,
        place: arguments.number("a place")?,
    })
}

fn post(arguments: &mut Arguments) -> Result<Call, Bad> {
    Ok(Call::Queue(QueueCall::Post {
        slot: Slot::new(arguments.number("a slot")?),
        thread: arguments.thread()?,
        entry: arguments.entry()?,
        rights: arguments.value()?,
    }))
}

fn turn(_: &mut Arguments) -> Result<Call, Bad> {
    Ok(Call::Queue(QueueCall::Turn))
}

/// A slot that is read is one of the eight: no call of the broker refuses another.
fn slot(arguments: &mut Arguments) -> Result<Call, Bad> {
    let word = arguments.word()?;
    let slot = number(word, "a slot")?;
    if slot > LAST_SLOT {
        return Err(Bad::word(word, format!("a slot from 0 to {LAST_SLOT}")));
    }
    let slot = Slot::new(slot);
    Ok(Call::Queue(QueueCall::Slot { slot }))
}

const LAST_SLOT: u64 = 7;

fn fresh_queue(_: &mut Arguments) -> Result<Call, Bad> {
    Ok(Call::Queue(QueueCall::Fresh))
}
