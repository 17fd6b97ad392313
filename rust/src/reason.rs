//! Why a call was refused, and why an image is unfit.
use core::error::Error;
use core::fmt;

/// Why a call was refused. A call that is refused has changed nothing, but for the link buffer of [`Editor::walk`](crate::Editor::walk).
///
/// Where more than one reason holds, each call says in which order it gives them. The number, 1 to 24, is the same at every edge of the library.
#[derive(Clone, Copy, PartialEq, Eq, Hash, Debug)]
#[non_exhaustive]
pub enum Reason {
    /// 1: the image's length is not 16 to 4,096 whole blocks.
    BadArena,
    /// 2: the image is not sound.
    Damaged,
    /// 3: the table of open nodes is not well formed.
    BadTable,
    /// 4: not a live hold with that stamp, or another owner's.
    BadHandle,
    /// 5: a name has a zero byte inside, or is not UTF-8; or a new one, of a create, link or rename, has a slash; or a path or target has an empty part.
    BadName,
    /// 6: an owner that is not 1 to 4, a new node that is no file, folder or symlink, a folder that would go into itself or below, or a range that can't be
    /// inserted or collapsed.
    InvalidParam,
    /// 7: not a folder.
    NotDir,
    /// 8: the folder has no links left.
    DirRemoved,
    /// 9: a folder, where none may be.
    IsDir,
    /// 10: a name of more than 255 bytes.
    NameTooLong,
    /// 11: no such name, or no such slot.
    EntryNotFound,
    /// 12: the name is there already.
    EntryExist,
    /// 13: the folder has entries.
    DirNotEmpty,
    /// 14: a node's file has that file name already.
    FileTaken,
    /// 15: a link count of 65,535 would rise.
    TooManyLinks,
    /// 16: 8 handles of this owner are live, or no stamp is left.
    TableFull,
    /// 17: no free node number, or no free block.
    NoDeviceSpace,
    /// 18: no image of this file system; or, from [`Image::inventory`](crate::Image::inventory), the checker fails what is stored, and from
    /// [`Image::mend`](crate::Image::mend), it can't be mended.
    WrongFs,
    /// 19: what is stored does not fit together, and the call can't go on.
    Stuck,
    /// 20: a slot remains, and the output has no room for one; a target does not fit the link buffer, or an inventory or a path the output.
    OutFull,
    /// 21: a folder, where contents are asked for; for a range, anything but a file.
    NotFile,
    /// 22: a write, a resize or a range would end past 4,294,967,295 bytes, or a file grow past them.
    FileTooBig,
    /// 23: a walk meets its ninth symlink.
    SymLoop,
    /// 24: a handle is live, whoever's, where none may be to mend.
    InUse,
    /// A number that no call gives.
    Unknown(u32),
}

/// The reasons in the order of their numbers, with name and meaning.
const REASONS: [(Reason, &str, &str); 24] = [
    (Reason::BadArena, "BadArena", "the image's length is not 16 to 4,096 whole blocks"),
    (Reason::Damaged, "Damaged", "the image is not sound"),
    (Reason::BadTable, "BadTable", "the table of open nodes is not well formed"),
    (Reason::BadHandle, "BadHandle", "not a live hold with that stamp, or another owner's"),
    (Reason::BadName, "BadName", "a name has a zero byte inside, is not UTF-8, or is new and has a slash; or a path has an empty part"),
    (
        Reason::InvalidParam,
        "InvalidParam",
        "an owner that is not 1 to 4, a new node that is no file, folder or symlink, a folder into itself or below, or no range to insert or collapse",
    ),
    (Reason::NotDir, "NotDir", "not a folder"),
    (Reason::DirRemoved, "DirRemoved", "the folder has no links left"),
    (Reason::IsDir, "IsDir", "a folder, where none may be"),
    (Reason::NameTooLong, "NameTooLong", "a name of more than 255 bytes"),
    (Reason::EntryNotFound, "EntryNotFound", "no such name, or no such slot"),
    (Reason::EntryExist, "EntryExist", "the name is there already"),
    (Reason::DirNotEmpty, "DirNotEmpty", "the folder has entries"),
    (Reason::FileTaken, "FileTaken", "a node's file has that file name already"),
    (Reason::TooManyLinks, "TooManyLinks", "a link count of 65,535 would rise"),
    (Reason::TableFull, "TableFull", "8 handles of this owner are live, or no stamp is left"),
    (Reason::NoDeviceSpace, "NoDeviceSpace", "no free node number, or no free block"),
    (Reason::WrongFs, "WrongFs", "no image of this file system; or what is stored fails the checker, for an inventory, or can't be mended"),
    (Reason::Stuck, "Stuck", "what is stored does not fit together, and the call can't go on"),
    (Reason::OutFull, "OutFull", "a slot remains, and the output has no room for one; or a target, an inventory or a path does not fit"),
    (Reason::NotFile, "NotFile", "a folder, where contents are asked for; or no file, where a range of one is"),
    (Reason::FileTooBig, "FileTooBig", "a write, a resize or a range would end past 4,294,967,295 bytes, or a file grow past them"),
    (Reason::SymLoop, "SymLoop", "a walk meets its ninth symlink"),
    (Reason::InUse, "InUse", "a handle is live, and to mend none may be"),
];

impl Reason {
    /// All of them, in the order of their numbers.
    pub fn all() -> impl Iterator<Item = Reason> {
        REASONS.iter().map(|&(reason, ..)| reason)
    }

    /// The reason's number: 1 to 24, or the number that no call gives.
    pub fn number(self) -> u32 {
        match self {
            Reason::Unknown(number) => number,
            _ => (1..).zip(Reason::all()).find(|&(_, reason)| reason == self).map_or(0, |(number, _)| number),
        }
    }

    /// The reason's name, as `BadHandle`.
    pub fn name(self) -> &'static str {
        self.row().map_or("Unknown", |&(_, name, _)| name)
    }

    fn row(self) -> Option<&'static (Reason, &'static str, &'static str)> {
        REASONS.iter().find(|&&(reason, ..)| reason == self)
    }

    /// The reason of a number that a call gave.
    pub(crate) fn of(number: u32) -> Reason {
        Reason::try_from(number).unwrap_or(Reason::Unknown(number))
    }
}

impl TryFrom<u32> for Reason {
    type Error = NoReason;

    fn try_from(number: u32) -> Result<Reason, NoReason> {
        (1..).zip(Reason::all()).find(|&(n, _)| n == number).map(|(_, reason)| reason).ok_or(NoReason(number))
    }
}

impl fmt::Display for Reason {
    /// Name, number and meaning.
    fn fmt(&self, f: &mut fmt::Formatter<'_>) -> fmt::Result {
        match self.row() {
            Some((_, name, meaning)) => write!(f, "{name} ({}): {meaning}", self.number()),
            None => write!(f, "Unknown ({}): a number that no call gives", self.number()),
        }
    }
}

impl Error for Reason {}

/// A number that is no reason's.
#[derive(Clone, Copy, PartialEq, Eq, Hash, Debug)]
pub struct NoReason(pub u32);

impl fmt::Display for NoReason {
    fn fmt(&self, f: &mut fmt::Formatter<'_>) -> fmt::Result {
        write!(f, "{} is no reason's number", self.0)
    }
}

impl Error for NoReason {}

/// The lowest of the checker's rules that an image fails.
#[derive(Clone, Copy, PartialEq, Eq, Hash, Debug)]
#[non_exhaustive]
pub enum FailedRule {
    /// 1: the image has a legal length and is sound.
    Arena,
    /// 2: the table of open nodes is well formed.
    Table,
    /// 3: the superblock says what is there.
    Superblock,
    /// 4: the maps mark the nodes, and open nodes are as stored.
    Maps,
    /// 5: each node has a type and a file of its own, and there are no other files.
    Nodes,
    /// 6: each folder's slots are whole, and its names distinct; every other node's file is as long as its size.
    Folders,
    /// 7: each link count is the number of names.
    Links,
    /// 8: each folder's `..` is the folder that names it, and leads up to the root.
    Parents,
    /// A number that the checker does not give.
    Unknown(u32),
}

impl FailedRule {
    /// The rule's number: 1 to 8, or the number that the checker does not give.
    pub fn number(self) -> u32 {
        match self {
            FailedRule::Arena => 1,
            FailedRule::Table => 2,
            FailedRule::Superblock => 3,
            FailedRule::Maps => 4,
            FailedRule::Nodes => 5,
            FailedRule::Folders => 6,
            FailedRule::Links => 7,
            FailedRule::Parents => 8,
            FailedRule::Unknown(number) => number,
        }
    }

    /// What the rule asks.
    pub fn asks(self) -> &'static str {
        match self {
            FailedRule::Arena => "the image has a legal length and is sound",
            FailedRule::Table => "the table of open nodes is well formed",
            FailedRule::Superblock => "the superblock says what is there",
            FailedRule::Maps => "the maps mark the nodes, and open nodes are as stored",
            FailedRule::Nodes => "each node has a type and a file of its own, and there are no other files",
            FailedRule::Folders => "each folder's slots are whole, and its names distinct; every other node's file is as long as its size",
            FailedRule::Links => "each link count is the number of names",
            FailedRule::Parents => "each folder's `..` is the folder that names it, and leads up to the root",
            FailedRule::Unknown(_) => "a number that the checker does not give",
        }
    }

    /// The rule of a number that the checker gave.
    pub(crate) fn of(number: u32) -> FailedRule {
        match number {
            1 => FailedRule::Arena,
            2 => FailedRule::Table,
            3 => FailedRule::Superblock,
            4 => FailedRule::Maps,
            5 => FailedRule::Nodes,
            6 => FailedRule::Folders,
            7 => FailedRule::Links,
            8 => FailedRule::Parents,
            _ => FailedRule::Unknown(number),
        }
    }
}

impl fmt::Display for FailedRule {
    fn fmt(&self, f: &mut fmt::Formatter<'_>) -> fmt::Result {
        write!(f, "the image fails rule {}: {}", self.number(), self.asks())
    }
}

impl Error for FailedRule {}

/// Why bytes were not taken as a checked image.
#[derive(Clone, Copy, PartialEq, Eq, Hash, Debug)]
pub enum Unfit {
    /// They could not be opened.
    Refused(Reason),
    /// They were opened, and the checker fails them.
    Fails(FailedRule),
}

impl From<Reason> for Unfit {
    fn from(reason: Reason) -> Unfit {
        Unfit::Refused(reason)
    }
}

impl From<FailedRule> for Unfit {
    fn from(rule: FailedRule) -> Unfit {
        Unfit::Fails(rule)
    }
}

impl fmt::Display for Unfit {
    fn fmt(&self, f: &mut fmt::Formatter<'_>) -> fmt::Result {
        match self {
            Unfit::Refused(reason) => reason.fmt(f),
            Unfit::Fails(rule) => rule.fmt(f),
        }
    }
}

impl Error for Unfit {}
