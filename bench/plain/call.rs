//! Calls of a script, and what they reply.

#[derive(Clone, Copy, PartialEq)]
pub enum Kind {
    Map,
    MapAny,
    MapNew,
    Unmap,
    Protect,
    Populate,
    Fault,
    Open,
    Close,
    Dup,
    Dup2,
    Get,
    Signal,
}

impl Kind {
    /// Whether it may change its object, so that it is in the object's log.
    pub fn is_logged(self) -> bool {
        !matches!(self, Kind::Fault | Kind::Get | Kind::Signal)
    }
}

#[derive(Clone, Copy, PartialEq)]
pub enum Mode {
    Plain,
    Int,
    Try,
}

#[derive(Clone, Copy)]
pub struct Call {
    /// The number of its object.
    pub object: u8,
    pub kind: Kind,
    pub mode: Mode,
    /// A protection, or the access of a fault: 1 reads, 2 writes, 4 runs.
    pub prot: u8,
    pub first: u32,
    pub second: u32,
}

#[derive(Clone, Copy)]
pub enum Reply {
    Good,
    Num(u32),
    BadF,
    NoMem,
    Exist,
    Inval,
    MFile,
    MapErr,
    AccErr,
    Sent,
}

/// What a task keeps of a call: its reply, and how many calls its object had logged before it.
#[derive(Clone, Copy)]
pub struct Record {
    pub reply: Reply,
    pub logged: u32,
}

/// Names of objects with their kinds, and the calls of each task.
#[derive(Default)]
pub struct Script {
    pub names: Vec<String>,
    pub is_space: Vec<bool>,
    pub tasks: Vec<Vec<Call>>,
}
