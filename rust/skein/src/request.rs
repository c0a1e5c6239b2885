//! Calls that a layer may refuse, with the entries that they name, and what they need where (document 01).
use crate::play::Player;
use crate::scenario::{
    AskedCall, Bad, Call, Mask, Operand, Other, Place as Target, SlotReport, ThreadCall, TreeCall,
};
use skeinrabbit::{Entry, Errno, Kind, Rights, Tables, Thread};

/// A call with a verdict.
#[derive(Clone, Copy, Debug)]
pub struct Request {
    pub thread: Thread,
    pub asked: Asked,
}

/// What is asked for.
#[derive(Clone, Copy, Debug)]
pub enum Asked {
    Access {
        entry: Entry,
    },
    Port {
        port: u64,
    },
    Create {
        directory: Entry,
        kind: Kind,
    },
    Remove {
        entry: Entry,
    },
    Link {
        source: Entry,
        directory: Entry,
    },
    Rename {
        source: Entry,
        directory: Entry,
        replaced: Option<Entry>,
    },
    Exchange {
        source: Entry,
        directory: Entry,
        entry: Entry,
    },
}

/// Where a rule grants something.
#[derive(Clone, Copy, Debug, PartialEq, Eq, PartialOrd, Ord)]
pub enum Place {
    Entry(Entry),
    Port(u64),
}

/// Rights at a place.
pub type Granted = (Place, Mask);

impl Request {
    /// The request of a call, with the entries of this moment; none of a call without a verdict.
    pub fn of(player: &Player, call: &Call) -> Result<Option<Request>, Bad> {
        let (thread, asked) = match call {
            Call::Thread { thread, call } => match call {
                ThreadCall::Access { entry, .. } => {
                    let entry = player.entry(entry)?;
                    (thread, Asked::Access { entry })
                }
                ThreadCall::Port { port, .. } => (thread, Asked::Port { port: *port }),
                _ => return Ok(None),
            },
            Call::Tree { thread, call } => (thread, tree_request(player, call)?),
            Call::Ask { thread, call } => (thread, asked_request(player, call)?),
            _ => return Ok(None),
        };
        let thread = player.thread(thread)?;
        Ok(Some(Request { thread, asked }))
    }

    /// The request that a slot of the queue holds.
    pub fn of_slot(slot: &SlotReport) -> Request {
        Request {
            thread: slot.thread,
            asked: Asked::Access { entry: slot.entry },
        }
    }

    /// The places where rules would have to grant what a layer refused it for, and what there. Of a right that is needed at two
    /// directories both are among them, whether the layer denies it at both or not.
    pub fn wanted(&self, tables: &Tables, errno: Errno, refused: Mask) -> Vec<Granted> {
        let rights = match (self.asked, refused) {
            (Asked::Port { port }, mask) => return vec![(Place::Port(port), mask)],
            (_, Mask::Files(rights)) => rights,
            (_, Mask::Ports(_)) => return Vec::new(),
        };
        let at: Vec<(Entry, Rights)> = match (self.asked, errno) {
            (Asked::Access { entry }, _) => vec![(entry, rights)],
            (_, Errno::EXDEV) if rights == Rights::REFER => {
                let needs = self.needs(tables).into_iter();
                needs.map(|(directory, _)| (directory, rights)).collect()
            }
            (_, Errno::EXDEV) => {
                let moved = self.moved().into_iter();
                moved
                    .map(|entry| (entry, rights & kind(tables, entry).rights()))
                    .collect()
            }
            _ => {
                let needs = self.needs(tables).into_iter();
                needs
                    .map(|(directory, needed)| (directory, needed & rights))
                    .collect()
            }
        };
        let some = at.into_iter().filter(|(_, rights)| !rights.is_empty());
        some.map(|(entry, rights)| (Place::Entry(entry), Mask::Files(rights)))
            .collect()
    }

    /// The directories that the change is about, with document 01's needs there, REFER aside.
    fn needs(&self, tables: &Tables) -> Vec<(Entry, Rights)> {
        let parent = |entry| tables.entry(entry).map_or(Entry::ROOT, |row| row.parent);
        let kind = |entry| kind(tables, entry);
        match self.asked {
            Asked::Access { .. } | Asked::Port { .. } => Vec::new(),
            Asked::Create { directory, kind } => vec![(directory, make(kind))],
            Asked::Remove { entry } => vec![(parent(entry), remove(kind(entry)))],
            Asked::Link { source, directory } => vec![
                (parent(source), Rights::NONE),
                (directory, make(kind(source))),
            ],
            Asked::Rename {
                source,
                directory,
                replaced,
            } => {
                let replaced = replaced.map_or(Rights::NONE, |entry| remove(kind(entry)));
                let from = (parent(source), remove(kind(source)));
                vec![from, (directory, make(kind(source)) | replaced)]
            }
            Asked::Exchange {
                source,
                directory,
                entry,
            } => {
                let (one, two) = (kind(source), kind(entry));
                let from = (parent(source), remove(one) | make(two));
                vec![from, (directory, make(one) | remove(two))]
            }
        }
    }

    /// What is moved.
    fn moved(&self) -> Vec<Entry> {
        match self.asked {
            Asked::Link { source, .. } | Asked::Rename { source, .. } => vec![source],
            Asked::Exchange { source, entry, .. } => vec![source, entry],
            _ => Vec::new(),
        }
    }
}

fn kind(tables: &Tables, entry: Entry) -> Kind {
    tables.entry(entry).map_or(Kind::REGULAR, |row| row.kind)
}

/// The right to make an entry of a kind.
fn make(kind: Kind) -> Rights {
    match kind {
        Kind::REGULAR => Rights::MAKE_REG,
        Kind::DIRECTORY => Rights::MAKE_DIR,
        Kind::CHARACTER => Rights::MAKE_CHAR,
        Kind::BLOCK => Rights::MAKE_BLOCK,
        Kind::FIFO => Rights::MAKE_FIFO,
        Kind::SOCKET => Rights::MAKE_SOCK,
        _ => Rights::MAKE_SYM,
    }
}

/// The right to remove an entry of a kind.
fn remove(kind: Kind) -> Rights {
    match kind {
        Kind::DIRECTORY => Rights::REMOVE_DIR,
        _ => Rights::REMOVE_FILE,
    }
}

fn tree_request(player: &Player, call: &TreeCall) -> Result<Asked, Bad> {
    Ok(match call {
        TreeCall::Create { place, kind } => {
            let (directory, kind) = (player.place(place)?.0, *kind);
            Asked::Create { directory, kind }
        }
        TreeCall::Remove { entry } => {
            let entry = player.entry(entry)?;
            Asked::Remove { entry }
        }
        TreeCall::Link { source, place } => linked(player, source, place)?,
        TreeCall::Rename { source, place } => renamed(player, source, place)?,
        TreeCall::Exchange { source, other } => exchanged(player, source, other)?,
    })
}

fn asked_request(player: &Player, call: &AskedCall) -> Result<Asked, Bad> {
    Ok(match call {
        AskedCall::Access { entry, .. } => {
            let entry = player.entry(entry)?;
            Asked::Access { entry }
        }
        AskedCall::Port { port, .. } => Asked::Port { port: *port },
        AskedCall::Link { source, place } => linked(player, source, place)?,
        AskedCall::Rename { source, place } => renamed(player, source, place)?,
        AskedCall::Exchange { source, other } => exchanged(player, source, other)?,
    })
}

fn linked(player: &Player, source: &Operand, place: &Target) -> Result<Asked, Bad> {
    let (source, directory) = (player.entry(source)?, player.place(place)?.0);
    Ok(Asked::Link { source, directory })
}

fn renamed(player: &Player, source: &Operand, place: &Target) -> Result<Asked, Bad> {
    let source = player.entry(source)?;
    let (directory, name) = player.place(place)?;
    let mut inside = player.tables.entries();
    let replaced = inside.find(|row| {
        let there = row.parent == directory && row.entry != Entry::ROOT;
        there && player.tables.name(row.entry) == name
    });
    Ok(Asked::Rename {
        source,
        directory,
        replaced: replaced.map(|row| row.entry),
    })
}

fn exchanged(player: &Player, source: &Operand, other: &Other) -> Result<Asked, Bad> {
    let source = player.entry(source)?;
    let (directory, entry) = player.other(other)?;
    Ok(Asked::Exchange {
        source,
        directory,
        entry,
    })
}
