//! What a call answers: an answer of its own, or a refusal with its number and the rule that gave it.

/// "When the desk says no"
#[derive(Clone, Copy, PartialEq, Eq, Debug)]
pub enum Errno {
    Eperm,
    Esrch,
    Eagain,
    Einval,
    Enospc,
    Erange,
    Eusers,
}

impl Errno {
    pub fn number(self) -> u32 {
        match self {
            Errno::Eperm => 1,
            Errno::Esrch => 3,
            Errno::Eagain => 11,
            Errno::Einval => 22,
            Errno::Enospc => 28,
            Errno::Erange => 34,
            Errno::Eusers => 87,
        }
    }

    pub fn name(self) -> &'static str {
        match self {
            Errno::Eperm => "EPERM",
            Errno::Esrch => "ESRCH",
            Errno::Eagain => "EAGAIN",
            Errno::Einval => "EINVAL",
            Errno::Enospc => "ENOSPC",
            Errno::Erange => "ERANGE",
            Errno::Eusers => "EUSERS",
        }
    }
}

/// The rules of document 01 that refuse a call.
#[derive(Clone, Copy, PartialEq, Eq, PartialOrd, Ord, Debug)]
pub enum Rule {
    NoSuchCaller,
    NoSuchProcess,
    NoSuchNamespace,
    LevelFull,
    EffectiveUserUnmapped,
    EffectiveGroupUnmapped,
    NamespacesFull,
    ProcessesFull,
    AlreadyMember,
    NoSysAdmin,
    TargetInitial,
    WriterElsewhere,
    TextEmpty,
    TextTooLong,
    AlreadyWritten,
    NoCapabilityInTarget,
    OtherByte,
    EmptyLine,
    NotThreeNumbers,
    NumberOverTop,
    CountZero,
    InsideOverTop,
    ParentOverTop,
    OverlapInside,
    OverlapParent,
    SixthLine,
    NotOneLine,
    NotCountOne,
    NotOwnId,
    NotOwner,
    SetgroupsNotDenied,
    ParentSideNotWhole,
    NotAllowOrDeny,
    DenyAfterGroupMap,
    AllowAfterDeny,
    IdUnmapped,
    IdNotPresent,
    NoSetgid,
    GroupMapUnwritten,
    SetgroupsDenied,
    TooManyGroups,
    GroupUnmapped,
    CapabilityOverLast,
    PermittedAdded,
    EffectiveNotPart,
    BufferShort,
}

impl Rule {
    pub fn errno(self) -> Errno {
        use Rule::*;
        match self {
            NoSuchCaller | NoSuchProcess | NoSuchNamespace => Errno::Esrch,
            ProcessesFull => Errno::Eagain,
            LevelFull => Errno::Eusers,
            NamespacesFull => Errno::Enospc,
            BufferShort => Errno::Erange,
            AlreadyMember | TextEmpty | TextTooLong | OtherByte | EmptyLine | NotThreeNumbers
            | NumberOverTop | CountZero | InsideOverTop | ParentOverTop | OverlapInside
            | OverlapParent | SixthLine | NotAllowOrDeny | IdUnmapped | TooManyGroups
            | GroupUnmapped | CapabilityOverLast => Errno::Einval,
            EffectiveUserUnmapped
            | EffectiveGroupUnmapped
            | NoSysAdmin
            | TargetInitial
            | WriterElsewhere
            | AlreadyWritten
            | NoCapabilityInTarget
            | NotOneLine
            | NotCountOne
            | NotOwnId
            | NotOwner
            | SetgroupsNotDenied
            | ParentSideNotWhole
            | DenyAfterGroupMap
            | AllowAfterDeny
            | IdNotPresent
            | NoSetgid
            | GroupMapUnwritten
            | SetgroupsDenied
            | PermittedAdded
            | EffectiveNotPart => Errno::Eperm,
        }
    }
}

/// What a call answers; a read's answer holds the whole buffer after the call.
#[derive(Clone, PartialEq, Eq, Debug)]
pub enum Answer {
    Done,
    Child(u64),
    ChildInNamespace { child: u64, namespace: u64 },
    Namespace(u64),
    Yes,
    No,
    Id(u32),
    Unmapped,
    OwnIds { user: [u32; 3], group: [u32; 3], groups: Vec<u32> },
    Length { length: usize, buffer: Vec<u8> },
    Refused(Rule),
    ReadRefused { rule: Rule, buffer: Vec<u8> },
}
