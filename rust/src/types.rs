//! What calls take and give.
use crate::Reason;

/// Who asks: one of the four who share an image.
#[derive(Clone, Copy, PartialEq, Eq, PartialOrd, Ord, Hash, Debug)]
#[repr(u8)]
pub enum Owner {
    /// The first.
    One = 1,
    /// The second.
    Two = 2,
    /// The third.
    Three = 3,
    /// The fourth.
    Four = 4,
}

impl Owner {
    /// All four.
    pub const ALL: [Owner; 4] = [Owner::One, Owner::Two, Owner::Three, Owner::Four];

    /// The owner's number, 1 to 4.
    pub const fn number(self) -> u8 {
        self as u8
    }
}

impl TryFrom<u8> for Owner {
    type Error = Reason;

    /// Numbers other than 1 to 4 are [`Reason::InvalidParam`].
    fn try_from(number: u8) -> Result<Owner, Reason> {
        Owner::ALL.into_iter().find(|owner| owner.number() == number).ok_or(Reason::InvalidParam)
    }
}

/// A hold on a node: what [`Editor::root`](crate::Editor::root), [`find`](crate::Editor::find), [`walk`](crate::Editor::walk) and
/// [`create`](crate::Editor::create) give, and what [`close`](crate::Editor::close) gives up.
///
/// It is a plain value, and no node number: two finds of one name give two handles, and closing one leaves the other. A handle that was closed, that
/// never was, or that is another owner's, is refused with [`Reason::BadHandle`]. No stamp is given twice until the image is opened or formatted again.
#[derive(Clone, Copy, PartialEq, Eq, PartialOrd, Ord, Hash, Debug)]
pub struct Handle {
    /// The hold's number, below 32.
    pub hold: u32,
    /// The hold's stamp, from 1 on.
    pub stamp: u64,
}

/// What a node is.
#[derive(Clone, Copy, PartialEq, Eq, PartialOrd, Ord, Hash, Debug)]
#[repr(u32)]
pub enum Kind {
    /// A file.
    File = 1,
    /// A folder.
    Folder = 2,
    /// A symbolic link.
    Symlink = 3,
    /// A socket. Stored ones are there, and every call takes them; none is made any more ([`NewKind`]).
    Socket = 4,
}

impl Kind {
    /// The kind's number, as it is stored: 1 to 4.
    pub const fn number(self) -> u32 {
        self as u32
    }
}

impl TryFrom<u32> for Kind {
    type Error = Reason;

    /// Numbers other than 1 to 4 are [`Reason::InvalidParam`].
    fn try_from(number: u32) -> Result<Kind, Reason> {
        match number {
            1 => Ok(Kind::File),
            2 => Ok(Kind::Folder),
            3 => Ok(Kind::Symlink),
            4 => Ok(Kind::Socket),
            _ => Err(Reason::InvalidParam),
        }
    }
}

/// What a node can be made as: no socket.
#[derive(Clone, Copy, PartialEq, Eq, PartialOrd, Ord, Hash, Debug)]
pub enum NewKind {
    /// A file.
    File,
    /// A folder.
    Folder,
    /// A symbolic link.
    Symlink,
}

impl From<NewKind> for Kind {
    fn from(kind: NewKind) -> Kind {
        match kind {
            NewKind::File => Kind::File,
            NewKind::Folder => Kind::Folder,
            NewKind::Symlink => Kind::Symlink,
        }
    }
}

/// What [`Editor::fallocate`](crate::Editor::fallocate) does with a range of a file.
#[derive(Clone, Copy, PartialEq, Eq, PartialOrd, Ord, Hash, Debug)]
pub enum FallocateMode {
    /// Where the range ends past the size, the file grows to its end. No block is taken.
    Allocate {
        /// The size stays, and nothing is done.
        keep_size: bool,
    },
    /// Zeros over what of the range lies below the size, which stays.
    PunchHoleKeepSize,
    /// Zeros over the range; where it ends past the size, the file grows to its end.
    ZeroRange,
    /// As [`PunchHoleKeepSize`](FallocateMode::PunchHoleKeepSize).
    ZeroRangeKeepSize,
    /// The range goes, and what lies after it moves down to its start. The file shrinks.
    CollapseRange,
    /// What lies from the range's start on moves up behind it, and the range reads as zeros. The file grows.
    InsertRange,
}

impl FallocateMode {
    /// The mode's number, 0 to 5.
    pub const fn number(self) -> u8 {
        match self {
            FallocateMode::Allocate { .. } => 0,
            FallocateMode::PunchHoleKeepSize => 1,
            FallocateMode::ZeroRange => 2,
            FallocateMode::ZeroRangeKeepSize => 3,
            FallocateMode::CollapseRange => 4,
            FallocateMode::InsertRange => 5,
        }
    }

    /// The flags beside it: 1 where an allocation keeps the size, else 0.
    pub const fn flags(self) -> u8 {
        match self {
            FallocateMode::Allocate { keep_size } => keep_size as u8,
            _ => 0,
        }
    }
}

/// A time. Both numbers are signed: a date before 1970 is negative. They are stored as they are given.
#[derive(Clone, Copy, PartialEq, Eq, PartialOrd, Ord, Hash, Debug, Default)]
pub struct Time {
    /// Seconds since 1970.
    pub sec: i64,
    /// Nanoseconds beside them.
    pub nsec: i64,
}

impl Time {
    /// A time of seconds and nanoseconds.
    pub const fn new(sec: i64, nsec: i64) -> Time {
        Time { sec, nsec }
    }
}

/// The name of a node's own file, 16 bytes. The caller makes a new one for every node, as from a random source.
#[derive(Clone, Copy, PartialEq, Eq, PartialOrd, Ord, Hash, Debug)]
pub struct FileName(pub [u8; 16]);

impl From<[u8; 16]> for FileName {
    fn from(bytes: [u8; 16]) -> FileName {
        FileName(bytes)
    }
}

/// What is known of a node.
#[derive(Clone, Copy, PartialEq, Eq, Hash, Debug)]
pub struct Metadata {
    /// The node's number.
    pub inode: u32,
    /// A file's length in bytes; a folder's number of slots.
    pub size: u64,
    /// The permissions.
    pub mode: u16,
    /// What the node is.
    pub kind: Kind,
    /// A folder's number of slots; what the record has there for other nodes.
    pub blocks: u32,
    /// The last access.
    pub atime: Time,
    /// The last change of the content.
    pub mtime: Time,
    /// The last change of the status.
    pub ctime: Time,
    /// How many names lead to the node. A folder has 2, and one more for each folder in it.
    pub links: u16,
    /// The user, as the system numbers them; no [`Owner`].
    pub uid: u32,
    /// The user's group.
    pub gid: u32,
}

impl Metadata {
    /// The part that [`Editor::set_metadata`](crate::Editor::set_metadata) sets.
    pub fn attributes(&self) -> Attributes {
        Attributes { mode: self.mode, uid: self.uid.into(), gid: self.gid.into(), atime: self.atime, mtime: self.mtime, ctime: self.ctime }
    }
}

/// What [`Editor::set_metadata`](crate::Editor::set_metadata) sets, all of it.
#[derive(Clone, Copy, PartialEq, Eq, Hash, Debug, Default)]
pub struct Attributes {
    /// The permissions.
    pub mode: u16,
    /// The user; kept modulo 2^32.
    pub uid: u64,
    /// The user's group; kept modulo 2^32.
    pub gid: u64,
    /// The last access.
    pub atime: Time,
    /// The last change of the content.
    pub mtime: Time,
    /// The last change of the status.
    pub ctime: Time,
}

/// What the checker counts in an image that passes.
#[derive(Clone, Copy, PartialEq, Eq, Hash, Debug)]
pub struct Counts {
    /// Nodes, the root among them.
    pub nodes: u32,
    /// Node numbers that are unused.
    pub unused: u32,
    /// Free blocks.
    pub free: u32,
}
