//! How many rows each table has and how many cells each row.

/// Entries of the tree.
pub const MAX_ENTRIES: usize = 1024;
/// Rulesets that are open at once.
pub const MAX_RULESETS: usize = 16;
/// Rules of a ruleset or layer.
pub const MAX_RULES: usize = 64;
/// Layer records.
pub const MAX_LAYERS: usize = 256;
/// Rules of all layers.
pub const MAX_POOL: usize = 1024;
/// Threads that are live at once.
pub const MAX_THREADS: usize = 8;
/// Layers of a thread's domain.
pub const MAX_DOMAIN: usize = 64;
/// Slots of a queue.
pub const MAX_SLOTS: usize = 8;
/// Bytes of an entry's name.
pub const MAX_NAME: usize = 48;
/// Bytes of a path that is looked up.
pub const MAX_PATH: usize = 4095;
/// Bytes of a policy file.
pub const MAX_POLICY: usize = 32_768;
/// Bytes of the name of a ruleset in a policy file.
pub const MAX_RULESET_NAME: usize = 32;

/// The cells of the only row of `system`.
pub const SYSTEM_WIDTH: usize = 4;
pub const ENTRY_WIDTH: usize = 3;
/// The cells of a ruleset before its rules.
pub const RULESET_HEAD: usize = 4;
pub const RULESET_WIDTH: usize = RULESET_HEAD + RULE_WIDTH * MAX_RULES;
pub const LAYER_WIDTH: usize = 7;
pub const RULE_WIDTH: usize = 3;
pub const THREAD_WIDTH: usize = 4;
/// The bytes of a row of `names`: the name's length, the name, zeros.
pub const NAME_WIDTH: usize = 1 + MAX_NAME;

/// The cells of a slot's request and of its answer.
pub const REQUEST_WIDTH: usize = 3;
pub const ANSWER_WIDTH: usize = 4;

/// The cells of a batch's request and of its answer.
pub const BATCH_REQUEST_WIDTH: usize = 7;
pub const BATCH_ANSWER_WIDTH: usize = 3;

/// The cells of a report about policy files: the file, a place in it, a length.
pub const POLICY_REPORT_WIDTH: usize = 3;

/// The bytes of a log's field before its value: the tag, and the length, the lower byte first.
pub const FIELD_HEAD: usize = 3;
/// Bytes of the value of a log's field.
pub const MAX_LOG_VALUE: usize = 64;
/// The bytes that any field of a log fits in.
pub const LOG_FIELD_SIZE: usize = FIELD_HEAD + MAX_LOG_VALUE;

/// The bytes of `names`, which has a row for each entry.
pub const NAMES_SIZE: usize = NAME_WIDTH * MAX_ENTRIES;

/// The cells of a row of each table but `names`, in the order of the fields of [`Cells`](crate::Cells).
pub const WIDTHS: [usize; 6] = [
    SYSTEM_WIDTH,
    ENTRY_WIDTH,
    RULESET_WIDTH,
    LAYER_WIDTH,
    RULE_WIDTH,
    THREAD_WIDTH,
];

/// The cells of each table, in the same order.
pub const SIZES: [usize; 6] = [
    SYSTEM_WIDTH,
    ENTRY_WIDTH * MAX_ENTRIES,
    RULESET_WIDTH * MAX_RULESETS,
    LAYER_WIDTH * MAX_LAYERS,
    RULE_WIDTH * MAX_POOL,
    THREAD_WIDTH * MAX_THREADS,
];
