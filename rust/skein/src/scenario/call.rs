//! The calls and their arguments.
use super::names::Operand;
use super::poke::Poked;
use super::text::Text;
use skeinrabbit::{Attribute, Kind, Layer, Level, PortRights, Rights, Scopes, Slot};

/// A call with its arguments.
#[derive(Debug, PartialEq, Eq)]
pub enum Call {
    Fresh {
        level: Level,
    },
    Ruleset(RulesetCall),
    Policy(PolicyCall),
    /// Writes the policy file of a ruleset into so many bytes.
    WritePolicy {
        ruleset: Operand,
        name: Text,
        room: usize,
    },
    LayerRules {
        layer: Layer,
    },
    Thread {
        thread: Operand,
        call: ThreadCall,
    },
    Tree {
        thread: Operand,
        call: TreeCall,
    },
    Lookup {
        path: Text,
    },
    Component {
        path: Text,
        place: u64,
    },
    Queue(QueueCall),
    Log(LogCall),
    /// Asks for the verdict of a call, and changes nothing.
    Ask {
        thread: Operand,
        call: AskedCall,
    },
    /// Writes rows of `names`: of `count` entries from the first on, counted as rounds are.
    PokeName {
        first: u64,
        count: u64,
        name: Text,
    },
    Poke {
        poked: Poked,
        /// Cells of the table or of the part, each with its new value.
        writes: Vec<(usize, u64)>,
    },
}

/// What happens to the queue.
#[derive(Debug, PartialEq, Eq)]
pub enum QueueCall {
    Fresh,
    Post {
        slot: Slot,
        thread: Operand,
        entry: Operand,
        rights: Rights,
    },
    Turn,
    /// Reads a slot.
    Slot {
        slot: Slot,
    },
}

/// What happens to the log.
#[derive(Debug, PartialEq, Eq)]
pub enum LogCall {
    /// Starts one at the tables of this moment.
    Start {
        room: usize,
        used: u64,
    },
    /// Keeps none any more.
    End,
    Cut {
        length: u64,
    },
    /// Reads it.
    Read,
    /// Puts back the tables that it started from.
    Restart,
    /// Makes its changes again, or those of other bytes.
    Replay {
        bytes: Option<Text>,
    },
}

/// A call about a ruleset.
#[derive(Debug, PartialEq, Eq)]
pub enum RulesetCall {
    Create {
        bytes: RulesetBytes,
        flags: u64,
    },
    Close {
        ruleset: Operand,
    },
    AddPath {
        ruleset: Operand,
        entry: Operand,
        rights: Rights,
        flags: u64,
    },
    AddPort {
        ruleset: Operand,
        port: u64,
        rights: PortRights,
        flags: u64,
    },
    Restrict {
        thread: Operand,
        ruleset: Operand,
        flags: u64,
    },
}

/// A ruleset that is found in policy files by its name, and perhaps opened.
#[derive(Debug, PartialEq, Eq)]
pub struct PolicyCall {
    pub stock: FileOperand,
    pub site: FileOperand,
    pub name: Text,
    /// Whether it is opened.
    pub apply: bool,
}

/// A policy file.
#[derive(Debug, PartialEq, Eq)]
pub enum FileOperand {
    /// Its bytes.
    Bytes(Text),
    /// Its name, from where the scenario stands.
    Name(Text),
}

/// A thread's call that leaves the tree alone.
#[derive(Debug, PartialEq, Eq)]
pub enum ThreadCall {
    Clone,
    End,
    SetNoNewPrivs,
    SetAdmin { on: bool },
    Access { entry: Operand, rights: Rights },
    Port { port: u64, rights: PortRights },
    Reach { scope: Scopes, target: Operand },
}

/// A thread's call that changes the tree.
#[derive(Debug, PartialEq, Eq)]
pub enum TreeCall {
    Create { place: Place, kind: Kind },
    Remove { entry: Operand },
    Link { source: Operand, place: Place },
    Rename { source: Operand, place: Place },
    Exchange { source: Operand, other: Other },
}

/// A thread's call that a batch asks about.
#[derive(Debug, PartialEq, Eq)]
pub enum AskedCall {
    Access { entry: Operand, rights: Rights },
    Port { port: u64, rights: PortRights },
    Link { source: Operand, place: Place },
    Rename { source: Operand, place: Place },
    Exchange { source: Operand, other: Other },
}

/// Where an entry is put.
#[derive(Debug, PartialEq, Eq)]
pub enum Place {
    /// A directory and a name.
    In { directory: Operand, name: Text },
    /// A path: its last component is the name.
    Path(Text),
}

/// The entry that another one is exchanged with.
#[derive(Debug, PartialEq, Eq)]
pub enum Other {
    /// A directory and an entry.
    In { directory: Operand, entry: Operand },
    /// A path: what stands before its last component is the directory.
    Path(Text),
}

/// How a line gives a ruleset's attribute.
#[derive(Debug, PartialEq, Eq)]
pub enum RulesetBytes {
    Hex(Vec<u8>),
    Masks(Masks),
}

/// An attribute by its masks, and its size where the line gives one.
#[derive(Debug, Default, PartialEq, Eq)]
pub struct Masks {
    pub attribute: Attribute,
    pub size: Option<u64>,
}
