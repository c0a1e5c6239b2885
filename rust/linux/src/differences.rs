//! The classes of difference that the papers decide otherwise than Linux, each with its sentence.

use crate::broker::Broker;
use crate::kernel::MAX_KERNEL_DOMAIN;
use crate::operation::Operation;
use crate::rights::*;
use model::call::Call;
use model::names::LONGEST_NAME;
use model::state::{MAX_RULES, MAX_THREADS, POOL_PLACES};

/// The bytes that a name has at most in Linux.
const NAME_MAX: usize = 255;

/// What a call was answered. The tables are those before it.
#[derive(Clone, Copy)]
pub struct Answers<'a> {
    pub tables: &'a Broker,
    pub call: &'a Call,
    /// What asked Linux.
    pub operation: &'a Operation,
    pub ours: i64,
    /// The independent model's answer, after the same calls.
    pub model: i64,
    /// The same by Linux's own rule of REFER.
    pub by_domain: i64,
    pub linux: i64,
}

/// How the answers stand to each other.
#[derive(PartialEq, Eq, Debug)]
pub enum Comparison {
    Agree,
    /// Linux alone answers otherwise, for the reason of the class at this place.
    Known(usize),
    Unknown,
}

/// A known class of differences.
pub struct Class {
    pub name: &'static str,
    /// What Linux does.
    pub linux: &'static str,
    /// The words that decide for us: document 01's, or those of a request of document 02 that is named.
    pub paper: &'static str,
    /// Whether it explains answers that differ, successes among them as 0.
    applies: fn(&Answers) -> bool,
}

/// Compares: ours must be the model's answer, whatever Linux's is; Linux's may differ for the reason of a class.
pub fn compare(answers: &Answers) -> Comparison {
    if answers.ours != answers.model {
        return Comparison::Unknown;
    }
    let outcomes = Answers {
        ours: outcome(answers.ours),
        by_domain: outcome(answers.by_domain),
        linux: outcome(answers.linux),
        ..*answers
    };
    if outcomes.ours == outcomes.linux {
        return Comparison::Agree;
    }
    CLASSES
        .iter()
        .position(|class| (class.applies)(&outcomes))
        .map_or(Comparison::Unknown, Comparison::Known)
}

pub const CLASSES: [Class; 23] = [
    Class {
        name: "refer-of-domain",
        linux: "every layer of a domain handles REFER as soon as one of them has a file system mask",
        paper: "W3: a layer handles REFER unasked only if its file system mask is not zero. Follow it.",
        applies: refer_of_domain,
    },
    Class {
        name: "signal-within-a-process",
        linux: "threads of one process signal each other, whatever their domains are",
        paper: "W10: exactly if every layer in its domain that handles that scope is also a layer of the other thread's domain; otherwise EPERM",
        applies: signal_within_a_process,
    },
    Class {
        name: "link-directory",
        linux: "the verdict on the link of a directory comes before EPERM",
        paper: "link of a directory EPERM; the verdict",
        applies: link_directory,
    },
    Class {
        name: "link-root",
        linux: "the root is linked like any directory: ENOTDIR, ENAMETOOLONG, EEXIST, the verdict, EPERM",
        paper: "root as source, replaced, exchanged or removed EBUSY",
        applies: link_root,
    },
    Class {
        name: "replaced-above-source",
        linux: "a replaced directory that the source stands in is ENOTEMPTY before the verdict and before EISDIR",
        paper: "the verdict; [..] rename of a directory over a non-directory ENOTDIR, the reverse EISDIR; replaced or removed directory \
                not empty ENOTEMPTY",
        applies: replaced_above_source,
    },
    Class {
        name: "paths-before-entries",
        linux: "both directories are looked up, then names that cannot be moved, \".\" and \"..\" among them, are EBUSY, then the entries \
                are looked up",
        paper: "any named entry not live ENOENT; root as source, replaced, exchanged or removed EBUSY; target not a directory ENOTDIR",
        applies: paths_before_entries,
    },
    Class {
        name: "unknown-kind-first",
        linux: "mknod(2) tests the file type before the path",
        paper: "any named entry not live ENOENT; [..] target not a directory ENOTDIR; unknown kind EINVAL; W1: after the target's ENOTDIR \
                come a bad name [..], then for create and link a taken one, EEXIST",
        applies: unknown_kind_first,
    },
    Class {
        name: "name-of-dots",
        linux: "\".\" and \"..\" are names that are there: EEXIST, and EBUSY for a rename",
        paper: "W1: not \".\" or \"..\"; [..] a bad name (over-long ENAMETOOLONG, else EINVAL)",
        applies: name_of_dots,
    },
    Class {
        name: "length-of-a-name",
        linux: "a name has up to 255 bytes",
        paper: "W1: a name of 1 to 48 bytes; [..] over-long ENAMETOOLONG",
        applies: length_of_a_name,
    },
    Class {
        name: "path-from-elsewhere",
        linux: "a path without a leading slash starts at a directory that the caller names",
        paper: "W1: no leading slash or a zero byte EINVAL",
        applies: path_from_elsewhere,
    },
    Class {
        name: "symlink-on-the-way",
        linux: "a symlink in a path, or before a closing slash, is followed; told not to, openat2(2) answers ELOOP",
        paper: "W1: a symlink is never followed; [..] after a non-directory ENOTDIR (a closing slash there too)",
        applies: symlink_on_the_way,
    },
    Class {
        name: "version-flags",
        linux: "no attribute and a flag for the ABI version or the errata answers their number",
        paper: "flags not 0 EINVAL",
        applies: version_flags,
    },
    Class {
        name: "log-flags",
        linux: "landlock_restrict_self(2) knows flags that turn logging on or off",
        paper: "flags not 0 EINVAL; Left out: opened files, descriptors of other kinds (so no EBADFD), audit logging",
        applies: log_flags,
    },
    Class {
        name: "root-write-rule",
        linux: "a rule on the root is one like any other",
        paper: "W6: A path rule on the root that asks for any of WRITE_FILE, TRUNCATE, REMOVE, MAKE or REFER is refused with EPERM",
        applies: root_write_rule,
    },
    Class {
        name: "rules-of-a-ruleset",
        linux: "a ruleset takes more than 64 rules",
        paper: "a new object or port with 64 rules present E2BIG",
        applies: rules_of_a_ruleset,
    },
    Class {
        name: "layers-of-a-domain",
        linux: "a 17th layer of a domain is E2BIG",
        paper: "W5: The 17th layer is now fine and the 65th is E2BIG.",
        applies: layers_of_a_domain,
    },
    Class {
        name: "layer-records",
        linux: "layers and their rules take memory, not records of a table",
        paper: "no layer record or too few free pool rules ENOMEM",
        applies: layer_records,
    },
    Class {
        name: "thread-records",
        linux: "a process has more than 8 threads",
        paper: "none free EAGAIN",
        applies: thread_records,
    },
    Class {
        name: "symlink-opened",
        linux: "a symlink is never opened itself: ELOOP",
        paper: "any requested right not granted EACCES; else 0",
        applies: symlink_opened,
    },
    Class {
        name: "directory-as-file",
        linux: "a directory is not written or truncated (EISDIR) or executed (EACCES), whatever is granted",
        paper: "any requested right not granted EACCES; else 0",
        applies: directory_as_file,
    },
    Class {
        name: "file-as-directory",
        linux: "READ_DIR is asked by opening as a directory: ENOTDIR for another kind",
        paper: "bit outside the file set for a non-directory EINVAL",
        applies: file_as_directory,
    },
    Class {
        name: "not-a-regular-file",
        linux: "only a regular file is truncated (else EINVAL) or executed (else EACCES), whatever is granted",
        paper: "any requested right not granted EACCES; else 0",
        applies: not_a_regular_file,
    },
    Class {
        name: "not-a-device",
        linux: "IOCTL_DEV is asked for devices only",
        paper: "File set: bits 0, 1, 2, 14, 15; any requested right not granted EACCES; else 0",
        applies: not_a_device,
    },
];

/// The model, which answers as we do, would answer as Linux does by Linux's rule.
fn refer_of_domain(d: &Answers) -> bool {
    d.linux == d.by_domain
}

fn signal_within_a_process(d: &Answers) -> bool {
    matches!(d.operation, Operation::SignalThread { .. }) && d.linux == 0 && d.ours == -EPERM
}

fn link_directory(d: &Answers) -> bool {
    matches!(*d.call, Call::Link { source, .. } if source != 0 && d.tables.is_directory(source))
        && d.ours == -EPERM
        && [-EACCES, -EXDEV].contains(&d.linux)
}

fn link_root(d: &Answers) -> bool {
    matches!(d.call, Call::Link { source: 0, .. })
        && d.ours == -EBUSY
        && [-ENOTDIR, -ENAMETOOLONG, -EEXIST, -EACCES, -EXDEV, -EPERM].contains(&d.linux)
}

fn replaced_above_source(d: &Answers) -> bool {
    let Call::Rename {
        ref name,
        source,
        directory,
        ..
    } = *d.call
    else {
        return false;
    };
    let Some(entry) = d.tables.bearer(directory, name) else {
        return false;
    };
    entry != source
        && d.tables.is_live(source)
        && d.tables.is_at_or_above(entry, d.tables.parent(source))
        && d.linux == -ENOTEMPTY
        && [-EACCES, -EXDEV, -EISDIR].contains(&d.ours)
}

fn paths_before_entries(d: &Answers) -> bool {
    let (source, directory, other) = match *d.call {
        Call::Rename {
            source, directory, ..
        } => (source, directory, None),
        Call::Exchange {
            source,
            directory,
            entry,
            ..
        } => (source, directory, Some(entry)),
        _ => return false,
    };
    let names_root = source == 0 || other == Some(0) || is_dots(d.call);
    let names_absent = [Some(source), other]
        .into_iter()
        .flatten()
        .any(|entry| !d.tables.is_live(entry));
    let names_file = d.tables.is_live(directory) && !d.tables.is_directory(directory);
    match (d.linux, d.ours) {
        (linux, ours) if linux == -ENOTDIR && ours == -ENOENT => names_file && names_absent,
        (linux, ours) if linux == -ENOTDIR && ours == -EBUSY => names_file && names_root,
        (linux, ours) if linux == -EBUSY && ours == -ENOENT => {
            names_root && (names_absent || !d.tables.is_live(directory))
        }
        _ => false,
    }
}

fn unknown_kind_first(d: &Answers) -> bool {
    matches!(*d.call, Call::Create { kind, .. } if !(REGULAR..=SYMLINK).contains(&kind))
        && d.linux == -EINVAL
        && [-ENOENT, -ENOTDIR, -ENAMETOOLONG, -EEXIST].contains(&d.ours)
}

/// Whether a name that the call gives is "." or "..".
fn is_dots(call: &Call) -> bool {
    given_name(call).is_some_and(|name| [&b"."[..], b".."].contains(&name))
}

/// The name that a call gives an entry.
fn given_name(call: &Call) -> Option<&[u8]> {
    match call {
        Call::Create { name, .. } | Call::Link { name, .. } | Call::Rename { name, .. } => {
            Some(name)
        }
        _ => None,
    }
}

fn name_of_dots(d: &Answers) -> bool {
    let there = if matches!(d.call, Call::Rename { .. }) {
        -EBUSY
    } else {
        -EEXIST
    };
    is_dots(d.call) && d.ours == -EINVAL && d.linux == there
}

/// A name that Linux can give, and what comes after its length in the order; a path with such a component, which no entry bears.
fn length_of_a_name(d: &Answers) -> bool {
    let between = |name: &[u8]| (LONGEST_NAME + 1..=NAME_MAX).contains(&name.len());
    let after = match d.call {
        Call::Lookup { path } => {
            let mut parts = path.split(|byte| *byte == b'/');
            parts.any(between) && d.linux == -ENOENT
        }
        call => {
            let later = [0, -EINVAL, -EPERM, -EACCES, -EXDEV];
            given_name(call).is_some_and(between) && later.contains(&d.linux)
        }
    };
    d.ours == -ENAMETOOLONG && after
}

fn path_from_elsewhere(d: &Answers) -> bool {
    matches!(d.call, Call::Lookup { path } if !path.is_empty() && !path.starts_with(b"/"))
        && d.ours == -EINVAL
}

fn symlink_on_the_way(d: &Answers) -> bool {
    matches!(d.call, Call::Lookup { .. }) && d.ours == -ENOTDIR && d.linux == -ELOOP
}

fn version_flags(d: &Answers) -> bool {
    matches!(d.call, Call::CreateRuleset { bytes, flags: 1 | 2 } if bytes.is_empty())
        && d.linux == 0
        && d.ours == -EINVAL
}

fn log_flags(d: &Answers) -> bool {
    matches!(d.call, Call::Restrict { flags: 1..8, .. })
        && [0, -EBADF, -E2BIG].contains(&d.linux)
        && d.ours == -EINVAL
}

fn root_write_rule(d: &Answers) -> bool {
    matches!(*d.call, Call::AddPathRule { entry: 0, rights, .. } if rights & CHANGING != 0)
        && d.linux == 0
        && d.ours == -EPERM
}

fn rules_of_a_ruleset(d: &Answers) -> bool {
    matches!(*d.call, Call::AddPathRule { ruleset, .. } | Call::AddPortRule { ruleset, .. }
        if d.tables.rules(ruleset) == MAX_RULES as u64)
        && d.linux == 0
        && d.ours == -E2BIG
}

fn layers_of_a_domain(d: &Answers) -> bool {
    matches!(*d.call, Call::Restrict { thread, .. }
        if d.tables.domain(thread) == MAX_KERNEL_DOMAIN)
        && d.linux == -E2BIG
        && [0, -ENOMEM].contains(&d.ours)
}

/// Of the table's records only the pool's are used up here: 8 threads with the 16 layers that Linux lets them have use fewer
/// than there are layer records.
fn layer_records(d: &Answers) -> bool {
    let Call::Restrict { ruleset, .. } = *d.call else {
        return false;
    };
    let rules = d.tables.pool_used() + d.tables.rules(ruleset);
    rules > POOL_PLACES as u64 && d.linux == 0 && d.ours == -ENOMEM
}

fn thread_records(d: &Answers) -> bool {
    matches!(d.call, Call::Clone { .. })
        && d.tables.live_threads().len() as u64 == MAX_THREADS
        && d.linux == 0
        && d.ours == -EAGAIN
}

/// The entry's kind and the rights of an access.
fn access(d: &Answers) -> Option<(u64, u64)> {
    match *d.call {
        Call::Access { entry, rights, .. } => Some((d.tables.kind(entry), rights)),
        _ => None,
    }
}

/// Ours is the verdict: what is granted or not.
fn is_verdict(ours: i64) -> bool {
    [0, -EACCES].contains(&ours)
}

fn symlink_opened(d: &Answers) -> bool {
    access(d).is_some_and(|(kind, _)| kind == SYMLINK) && d.linux == -ELOOP && is_verdict(d.ours)
}

fn directory_as_file(d: &Answers) -> bool {
    let Some((DIRECTORY, rights)) = access(d) else {
        return false;
    };
    let answer = if rights & EXECUTE != 0 {
        -EACCES
    } else {
        -EISDIR
    };
    rights & READ_DIR == 0 && d.linux == answer && is_verdict(d.ours)
}

fn file_as_directory(d: &Answers) -> bool {
    access(d).is_some_and(|(kind, rights)| kind != DIRECTORY && rights & READ_DIR != 0)
        && d.linux == -ENOTDIR
        && d.ours == -EINVAL
}

fn not_a_regular_file(d: &Answers) -> bool {
    let Some((CHARACTER | BLOCK | FIFO | SOCKET, rights)) = access(d) else {
        return false;
    };
    let truncated = rights == TRUNCATE && d.linux == -EINVAL;
    let executed = rights & EXECUTE != 0 && d.linux == -EACCES;
    (truncated || executed) && is_verdict(d.ours)
}

fn not_a_device(d: &Answers) -> bool {
    access(d)
        .is_some_and(|(kind, rights)| ![CHARACTER, BLOCK].contains(&kind) && rights == IOCTL_DEV)
        && d.linux == 0
        && d.ours == -EACCES
}

#[cfg(test)]
mod tests {
    use super::*;
    use crate::call::NO_REPORT;
    use model::refusal::returned;
    use model::state::Model;

    /// A directory, with a symlink, a fifo and a directory in it, and a regular file in that one.
    const UPPER: u64 = 1;
    const LINK: u64 = 2;
    const PIPE: u64 = 3;
    const LOWER: u64 = 4;
    const FILE: u64 = 5;
    /// A thread without a layer, and one whose layer handles every right and grants none.
    const FREE: u64 = 0;
    const CONFINED: u64 = 1;
    /// One whose layer is of network rights alone, and one that has such a layer above one that grants all that it handles.
    const NETWORK: u64 = 2;
    const MIXED: u64 = 3;

    fn create_ruleset(masks: &[u64]) -> Call {
        Call::CreateRuleset {
            bytes: masks.iter().flat_map(|mask| mask.to_le_bytes()).collect(),
            flags: 0,
        }
    }

    fn path_rule(entry: u64, rights: u64) -> Call {
        Call::AddPathRule {
            ruleset: 1,
            entry,
            rights,
            flags: 0,
        }
    }

    /// The tree and the threads, on our side and on the model's.
    fn sides() -> (Broker, Model) {
        let (mut tables, mut model) = (Broker::new(TOP_LEVEL), Model::fresh(TOP_LEVEL));
        let create = |directory, kind, name: &str| Call::Create {
            name: name.as_bytes().to_vec(),
            thread: FREE,
            directory,
            kind,
            report: NO_REPORT,
        };
        let restrict = |thread, ruleset| Call::Restrict {
            thread,
            ruleset,
            flags: 0,
        };
        let [all, net, _] = known(TOP_LEVEL);
        let calls = [
            create(0, DIRECTORY, "upper"),
            create(UPPER, SYMLINK, "link"),
            create(UPPER, FIFO, "pipe"),
            create(UPPER, DIRECTORY, "lower"),
            create(LOWER, REGULAR, "file"),
            create_ruleset(&[all]),
            create_ruleset(&[all]),
            create_ruleset(&[0, net]),
            path_rule(UPPER, all),
            Call::SetNoNewPrivs { thread: FREE },
            Call::Clone { thread: FREE },
            Call::Clone { thread: FREE },
            Call::Clone { thread: FREE },
            restrict(CONFINED, 0),
            restrict(NETWORK, 2),
            restrict(MIXED, 1),
            restrict(MIXED, 2),
        ];
        for call in &calls {
            assert!(tables.ask(call) >= 0, "{call:?}");
            assert!(model.answer(call).0.is_ok(), "{call:?}");
        }
        (tables, model)
    }

    /// How answers of ours and of Linux compare, the model being asked.
    fn compared(call: &Call, ours: i64, linux: i64) -> Comparison {
        compared_after(&[], call, ours, linux)
    }

    /// The same after calls that succeed.
    fn compared_after(before: &[Call], call: &Call, ours: i64, linux: i64) -> Comparison {
        compared_by(&Operation::SetNoNewPrivs, before, call, [ours, linux])
    }

    /// The same where it was this that asked Linux.
    fn compared_by(
        operation: &Operation,
        before: &[Call],
        call: &Call,
        [ours, linux]: [i64; 2],
    ) -> Comparison {
        let (mut tables, mut model) = sides();
        for call in before {
            assert!(tables.ask(call) >= 0, "{call:?}");
            assert!(model.answer(call).0.is_ok(), "{call:?}");
        }
        compare(&Answers {
            tables: &tables,
            call,
            operation,
            ours,
            by_domain: returned(model.answer_by_domain(call).0) as i64,
            model: returned(model.answer(call).0) as i64,
            linux,
        })
    }

    fn class(name: &str) -> Comparison {
        let place = CLASSES.iter().position(|class| class.name == name);
        Comparison::Known(place.expect("a class of this name"))
    }

    fn access(thread: u64, entry: u64, rights: u64) -> Call {
        Call::Access {
            thread,
            entry,
            rights,
            report: NO_REPORT,
        }
    }

    /// The file over the directory that it stands below.
    fn rename(thread: u64) -> Call {
        Call::Rename {
            name: b"upper".to_vec(),
            thread,
            source: FILE,
            directory: 0,
            report: NO_REPORT,
        }
    }

    /// The class, the call of a thread, Linux's answer, and ours where nothing is denied.
    type Hidden = (&'static str, fn(u64) -> Call, i64, i64);

    /// Calls whose verdict Linux does not show.
    const HIDDEN: [Hidden; 4] = [
        ("symlink-opened", |t| access(t, LINK, READ_FILE), -ELOOP, 0),
        (
            "directory-as-file",
            |t| access(t, UPPER, TRUNCATE),
            -EISDIR,
            0,
        ),
        (
            "not-a-regular-file",
            |t| access(t, PIPE, TRUNCATE),
            -EINVAL,
            0,
        ),
        ("replaced-above-source", rename, -ENOTEMPTY, -EISDIR),
    ];

    #[test]
    fn the_right_verdict_is_of_the_class() {
        for (name, call, linux, granted) in HIDDEN {
            assert_eq!(compared(&call(FREE), granted, linux), class(name));
            assert_eq!(compared(&call(CONFINED), -EACCES, linux), class(name));
        }
    }

    #[test]
    fn a_wrong_verdict_is_unknown() {
        for (name, call, linux, granted) in HIDDEN {
            let wrong_grant = compared(&call(CONFINED), granted, linux);
            assert_eq!(wrong_grant, Comparison::Unknown, "{name}");
            let wrong_refusal = compared(&call(FREE), -EACCES, linux);
            assert_eq!(wrong_refusal, Comparison::Unknown, "{name}");
        }
    }

    /// Linux refuses to execute a directory or a fifo with the number of a denied right.
    #[test]
    fn a_wrong_verdict_on_executing_is_unknown() {
        for (entry, name) in [(UPPER, "directory-as-file"), (PIPE, "not-a-regular-file")] {
            let execute =
                |thread, ours| compared(&access(thread, entry, READ_FILE | EXECUTE), ours, -EACCES);
            assert_eq!(execute(FREE, 0), class(name));
            assert_eq!(execute(FREE, -EACCES), Comparison::Unknown, "{name}");
            assert_eq!(execute(CONFINED, -EACCES), Comparison::Agree);
            assert_eq!(execute(CONFINED, 0), Comparison::Unknown, "{name}");
        }
    }

    #[test]
    fn another_new_number_is_unknown() {
        let call = Call::Clone { thread: FREE };
        assert_eq!(compared(&call, 4, 0), Comparison::Agree);
        assert_eq!(compared(&call, 5, 0), Comparison::Unknown);
    }

    #[test]
    fn a_root_rule_is_of_the_class() {
        for bit in 0..16 {
            let call = path_rule(0, 1 << bit);
            let expected = match bit {
                0 | 2 | 3 | 15 => Comparison::Unknown,
                _ => class("root-write-rule"),
            };
            assert_eq!(compared(&call, -EPERM, 0), expected, "bit {bit}");
        }
        assert_eq!(compared(&path_rule(0, READ_DIR), 0, 0), Comparison::Agree);
        let wrong = [
            (path_rule(0, WRITE_FILE), 0, 0),
            (path_rule(0, WRITE_FILE), -EPERM, -E2BIG),
            (path_rule(UPPER, WRITE_FILE), -EPERM, 0),
            (path_rule(0, WRITE_FILE | 1 << 16), -EPERM, 0),
        ];
        for (call, ours, linux) in wrong {
            let answers = compared(&call, ours, linux);
            assert_eq!(answers, Comparison::Unknown, "{call:?} {ours} {linux}");
        }
    }

    /// A regular file in the upper directory.
    fn create(thread: u64, name: &[u8]) -> Call {
        Call::Create {
            name: name.to_vec(),
            thread,
            directory: UPPER,
            kind: REGULAR,
            report: NO_REPORT,
        }
    }

    #[test]
    fn names_are_of_their_classes() {
        let long = class("length-of-a-name");
        for (length, linux) in [(49, 0), (255, 0), (255, -EACCES), (49, -EXDEV)] {
            let answers = compared(&create(FREE, &vec![b'n'; length]), -ENAMETOOLONG, linux);
            assert_eq!(answers, long, "{length} {linux}");
        }
        let dots = class("name-of-dots");
        assert_eq!(compared(&create(FREE, b"."), -EINVAL, -EEXIST), dots);
        let both = compared(&create(CONFINED, b"link"), -EEXIST, -EEXIST);
        assert_eq!(both, Comparison::Agree);
        let wrong = [
            (create(FREE, &[b'n'; 48]), -ENAMETOOLONG, 0),
            (create(FREE, &[b'n'; 49]), 6, 0),
            (create(FREE, &[b'n'; 256]), -ENAMETOOLONG, 0),
            (create(FREE, &[b'n'; 49]), -ENAMETOOLONG, -EEXIST),
            (create(FREE, b".."), -EINVAL, -EBUSY),
            (create(FREE, b"..."), -EINVAL, -EEXIST),
            (create(FREE, b"link"), -EEXIST, 0),
            (create(CONFINED, b"link"), -EEXIST, -EACCES),
            (create(CONFINED, b"link"), -EACCES, -EACCES),
        ];
        for (call, ours, linux) in wrong {
            let answers = compared(&call, ours, linux);
            assert_eq!(answers, Comparison::Unknown, "{call:?} {ours} {linux}");
        }
    }

    #[test]
    fn paths_are_of_their_classes() {
        let lookup = |path: &[u8]| Call::Lookup {
            path: path.to_vec(),
        };
        let long = [b"/upper/", &[b'n'; 49][..]].concat();
        let answers = compared(&lookup(&long), -ENAMETOOLONG, -ENOENT);
        assert_eq!(answers, class("length-of-a-name"));
        for linux in [0, -ENOENT, -ELOOP] {
            let answers = compared(&lookup(b"upper"), -EINVAL, linux);
            assert_eq!(answers, class("path-from-elsewhere"));
        }
        for path in [&b"/upper/link/"[..], b"/upper/link/..", b"/upper/link/file"] {
            let answers = compared(&lookup(path), -ENOTDIR, -ELOOP);
            assert_eq!(answers, class("symlink-on-the-way"));
        }
        let wrong = [
            (lookup(b"/upper/link"), LINK as i64, -ELOOP),
            (lookup(b"/upper/pipe/"), -ENOTDIR, 0),
            (lookup(b"/upper/link/"), LINK as i64, 0),
            (lookup(b"/upper/none"), -ENOENT, 0),
            (lookup(b"/upper/.."), -ENOENT, -ENOENT),
            (lookup(b"/.."), -ENOENT, 0),
            (lookup(&long), -ENOENT, -ENOENT),
            (lookup(&long), -ENAMETOOLONG, 0),
        ];
        for (call, ours, linux) in wrong {
            let answers = compared(&call, ours, linux);
            assert_eq!(answers, Comparison::Unknown, "{call:?} {ours} {linux}");
        }
    }

    #[test]
    fn a_17th_layer_is_of_the_class() {
        let restrict = |ruleset| Call::Restrict {
            thread: FREE,
            ruleset,
            flags: 0,
        };
        let name = "layers-of-a-domain";
        for (layers, expected) in [(15, Comparison::Unknown), (16, class(name))] {
            let before = vec![restrict(0); layers];
            let answers = compared_after(&before, &restrict(0), 0, -E2BIG);
            assert_eq!(answers, expected, "{layers} layers");
        }
        let full = vec![restrict(0); 16];
        let wrong = [(0, -ENOMEM, -E2BIG), (0, 0, -ENOMEM), (9, -EBADF, -E2BIG)];
        for (ruleset, ours, linux) in wrong {
            let answers = compared_after(&full, &restrict(ruleset), ours, linux);
            assert_eq!(answers, Comparison::Unknown, "{ruleset} {ours} {linux}");
        }
        let both = compared_after(&full, &restrict(9), -EBADF, -EBADF);
        assert_eq!(both, Comparison::Agree);
    }

    #[test]
    fn a_signal_within_a_process_is_of_the_class() {
        let [_, _, scopes] = known(TOP_LEVEL);
        let restrict = Call::Restrict {
            thread: NETWORK,
            ruleset: 3,
            flags: 0,
        };
        let before = [create_ruleset(&[0, 0, scopes]), restrict];
        let signal = |thread, target| Call::Signal { thread, target };
        let compared = |operation, call, answers| compared_by(&operation, &before, &call, answers);
        let thread = || Operation::SignalThread { thread: 1 };
        let process = || Operation::Forked(Box::new(Operation::SignalProcess { descriptor: 3 }));
        let class = class("signal-within-a-process");
        let answers = compared(thread(), signal(NETWORK, FREE), [-EPERM, 0]);
        assert_eq!(answers, class);
        let both = compared(process(), signal(NETWORK, FREE), [-EPERM, -EPERM]);
        assert_eq!(both, Comparison::Agree);
        let socket = Call::AbstractSocket {
            thread: NETWORK,
            target: FREE,
        };
        let wrong = [
            (process(), signal(NETWORK, FREE), [-EPERM, 0]),
            (thread(), signal(NETWORK, FREE), [0, 0]),
            (thread(), signal(NETWORK, FREE), [-EPERM, -ESRCH]),
            (thread(), signal(FREE, NETWORK), [-EPERM, 0]),
            (thread(), signal(FREE, NETWORK), [0, -EPERM]),
            (process(), socket, [-EPERM, 0]),
        ];
        for (operation, call, answers) in wrong {
            let message = format!("{operation:?} {call:?} {answers:?}");
            let unknown = compared(operation, call, answers);
            assert_eq!(unknown, Comparison::Unknown, "{message}");
        }
    }

    /// The file to a directory.
    fn moved(thread: u64, directory: u64) -> Call {
        Call::Rename {
            name: b"new".to_vec(),
            thread,
            source: FILE,
            directory,
            report: NO_REPORT,
        }
    }

    #[test]
    fn refer_of_domain_is_of_the_class() {
        let answers = compared(&moved(MIXED, UPPER), 0, -EXDEV);
        assert_eq!(answers, class("refer-of-domain"));
        assert_eq!(compared(&moved(NETWORK, UPPER), 0, 0), Comparison::Agree);
    }

    /// Where Linux's rule gives another answer than Linux, or ours is not the model's, even if it is Linux's.
    #[test]
    fn a_wrong_verdict_on_refer_is_unknown() {
        let wrong = [
            (moved(MIXED, UPPER), 0, -EACCES),
            (moved(MIXED, UPPER), -EXDEV, -EXDEV),
            (moved(MIXED, UPPER), -EXDEV, 0),
            (moved(MIXED, LOWER), 0, -EXDEV),
            (moved(NETWORK, UPPER), 0, -EXDEV),
            (moved(NETWORK, UPPER), -EXDEV, -EXDEV),
            (moved(NETWORK, UPPER), -EXDEV, 0),
            (moved(FREE, UPPER), 0, -EXDEV),
        ];
        for (call, ours, linux) in wrong {
            let answers = compared(&call, ours, linux);
            assert_eq!(answers, Comparison::Unknown, "{call:?} {ours} {linux}");
        }
    }
}
