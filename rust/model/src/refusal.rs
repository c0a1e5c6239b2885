//! Why a call is refused, and the error number that says so.

/// The error numbers of the public Linux headers that the broker answers.
#[derive(Clone, Copy, PartialEq, Eq, PartialOrd, Ord, Debug)]
pub enum Errno {
    EPERM = 1,
    ENOENT = 2,
    ESRCH = 3,
    EIO = 5,
    E2BIG = 7,
    EBADF = 9,
    EAGAIN = 11,
    ENOMEM = 12,
    EACCES = 13,
    EBUSY = 16,
    EEXIST = 17,
    EXDEV = 18,
    ENOTDIR = 20,
    EISDIR = 21,
    EINVAL = 22,
    EMFILE = 24,
    ENOSPC = 28,
    ENAMETOOLONG = 36,
    ENOTEMPTY = 39,
    ENOMSG = 42,
    EBADMSG = 74,
    EOPNOTSUPP = 95,
}

impl Errno {
    pub const ALL: [Errno; 22] = [
        Errno::EPERM,
        Errno::ENOENT,
        Errno::ESRCH,
        Errno::EIO,
        Errno::E2BIG,
        Errno::EBADF,
        Errno::EAGAIN,
        Errno::ENOMEM,
        Errno::EACCES,
        Errno::EBUSY,
        Errno::EEXIST,
        Errno::EXDEV,
        Errno::ENOTDIR,
        Errno::EISDIR,
        Errno::EINVAL,
        Errno::EMFILE,
        Errno::ENOSPC,
        Errno::ENAMETOOLONG,
        Errno::ENOTEMPTY,
        Errno::ENOMSG,
        Errno::EBADMSG,
        Errno::EOPNOTSUPP,
    ];

    /// How a call returns the error: 2^64 minus its number.
    pub const fn returned(self) -> u64 {
        (self as u64).wrapping_neg()
    }
}

macro_rules! refusals {
    ($($(#[$doc:meta])* $name:ident $errno:ident;)*) => {
        /// One condition under which a call is refused.
        #[derive(Clone, Copy, PartialEq, Eq, PartialOrd, Ord, Debug)]
        pub enum Refusal {
            $($(#[$doc])* $name,)*
        }

        impl Refusal {
            pub fn errno(self) -> Errno {
                match self {
                    $(Refusal::$name => Errno::$errno,)*
                }
            }
        }
    };
}

refusals! {
    NotSound EIO;
    WrongLength EIO;
    UnknownLevel EINVAL;
    /// Level 0: Landlock is disabled.
    Disabled EOPNOTSUPP;
    FlagsNotZero EINVAL;
    AttributeTooShort EINVAL;
    AttributeTooLong E2BIG;
    BytePastKnownSize E2BIG;
    /// A bit that the level doesn't know, or, in a request, above the last right.
    UnknownBit EINVAL;
    NothingHandled ENOMSG;
    NoFreeRuleset EMFILE;
    RulesetNotOpen EBADF;
    NoRights ENOMSG;
    RightsNotHandled EINVAL;
    RuleEntryNotLive EBADF;
    /// A rule on the root that asks for a right to change something.
    SweepingRule EPERM;
    /// Rights outside the file set, for something other than a directory.
    RightsNotForFile EINVAL;
    PortOutOfRange EINVAL;
    RulesetFull E2BIG;
    ThreadNotLive ESRCH;
    /// The thread that a request between threads is for.
    TargetNotLive ESRCH;
    /// A layer handles the scope, and the target doesn't have it.
    OutOfScope EPERM;
    /// Neither no_new_privs nor admin is set.
    NoMark EPERM;
    DomainFull E2BIG;
    NoFreeLayer ENOMEM;
    PoolFull ENOMEM;
    LayerNotInUse EBADF;
    NoFreeThread EAGAIN;
    /// The only live thread can't end.
    OnlyThread EBUSY;
    EntryNotLive ENOENT;
    EmptyMask EINVAL;
    AccessDenied EACCES;
    RootNamed EBUSY;
    TargetNotDirectory ENOTDIR;
    NameTooLong ENAMETOOLONG;
    EmptyName EINVAL;
    /// "." or "..".
    NameOfDots EINVAL;
    NameWithSlash EINVAL;
    NameWithZero EINVAL;
    /// An entry of the directory bears the name.
    NameTaken EEXIST;
    UnknownKind EINVAL;
    NotChildOfTarget EINVAL;
    /// The source is the target directory or above it.
    SourceAboveTarget EINVAL;
    /// The exchanged entry is the source's parent or above it.
    OtherAboveSource EINVAL;
    LinkOfDirectory EPERM;
    ReferDenied EXDEV;
    NotContained EXDEV;
    /// The containment of an exchange's other entry, moved the other way.
    OtherNotContained EXDEV;
    DirectoryOverFile ENOTDIR;
    FileOverDirectory EISDIR;
    DirectoryNotEmpty ENOTEMPTY;
    NoFreeEntry ENOSPC;
    NoObjectNumber ENOSPC;
    EmptyPath ENOENT;
    PathTooLong ENAMETOOLONG;
    RelativePath EINVAL;
    PathWithZero EINVAL;
    /// A component after something that isn't a directory.
    AfterNonDirectory ENOTDIR;
    /// A closing slash after something that isn't a directory.
    SlashAfterNonDirectory ENOTDIR;
    ComponentTooLong ENAMETOOLONG;
    NoSuchName ENOENT;
    /// The slot of a queue that was served last is none of the eight.
    CursorPastEnd EIO;
    /// A list of a queue is not of eight slots.
    NotEightSlots EIO;
    /// A slot is neither empty nor waiting nor answered.
    UnknownState EIO;
    NoSuchSlot EINVAL;
    /// A request waits in the slot.
    SlotWaiting EAGAIN;
    /// A list of requests ends within one.
    RaggedRequests EINVAL;
    /// A request of none of the five sorts.
    UnknownSort EINVAL;
    /// Too little room for the answers of a batch.
    TooFewAnswers EINVAL;
    /// The name of a request is no part of the names.
    NameOutside EINVAL;
    /// A policy file of more than 32,768 bytes.
    FileTooLong E2BIG;
    /// One or two bytes at the end of a policy file.
    StrayBytes EBADMSG;
    /// A field whose value goes past the end of the file.
    ValuePastEnd EBADMSG;
    /// A field before the first ruleset.
    NoRulesetYet EBADMSG;
    RulesetWithoutName EBADMSG;
    RulesetNameTooLong EBADMSG;
    RulesetTwice EBADMSG;
    /// The file ends after a ruleset's name.
    MasksMissing EBADMSG;
    /// Another field stands where a ruleset's masks must.
    NotMasks EBADMSG;
    MasksSize EBADMSG;
    /// Masks that no name stands before.
    MasksAgain EBADMSG;
    PathRuleTooShort EBADMSG;
    PortRuleSize EBADMSG;
    UnknownTag EBADMSG;
    /// A ninth group inside eight others.
    GroupTooDeep EBADMSG;
    GroupWithoutLevel EBADMSG;
    /// A group's level is none of 1 to 6.
    GroupLevel EBADMSG;
    /// A ruleset is opened inside a group.
    RulesetInGroup EBADMSG;
    /// Neither policy file has a ruleset of the name.
    NoSuchRuleset ENOENT;
    /// The ruleset of a file that is to be written has an empty name.
    FileWithoutName EINVAL;
    FileNameTooLong EINVAL;
    /// A rule on an object that no entry has.
    NoEntryLeft ENOENT;
    /// The first path of a rule's object.
    ChosenPathTooLong ENAMETOOLONG;
    /// A file that is longer than the room for it.
    NoRoomForFile ENOSPC;
    /// The log has no room for the field of a change.
    NoLogRoom ENOSPC;
    /// A field of a log has none of the five tags.
    FieldTag EBADMSG;
    /// The value of a log's field is none that its tag has.
    FieldValue EBADMSG;
    /// The call of a log's field is refused.
    FieldRefused EBADMSG;
    /// The call of a log's field changes nothing.
    FieldIdle EBADMSG;
}

/// The number a call succeeds with, or why it is refused.
pub type Answer = Result<u64, Refusal>;

/// An answer as the one number a call returns.
pub fn returned(answer: Answer) -> u64 {
    answer.unwrap_or_else(|refusal| refusal.errno().returned())
}
