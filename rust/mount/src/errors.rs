//! What each refusal is to those who call through the traits.
use dzomrelig::Reason;
use rcore_fs::dev::EIO;
use rcore_fs::vfs::FsError;

/// The number that a device says where a file's name is taken.
pub const EEXIST: i32 = 17;

/// A way to make an error: they can't be copied.
type Make = fn() -> FsError;

/// Every reason and its error, in the order of the reasons' numbers.
///
/// Where SEFS answers an error for the same thing it is that one. For the others it is the nearest that there is: what SEFS leaves to its device, or would
/// have broken off at, is an error of the device.
pub const ERRORS: [(Reason, Make); 24] = [
    (Reason::BadArena, || FsError::WrongFs),
    (Reason::Damaged, || FsError::WrongFs),
    (Reason::BadTable, || FsError::DeviceError(EIO)),
    (Reason::BadHandle, || FsError::InvalidParam),
    (Reason::BadName, || FsError::InvalidParam),
    (Reason::InvalidParam, || FsError::InvalidParam),
    (Reason::NotDir, || FsError::NotDir),
    (Reason::DirRemoved, || FsError::DirRemoved),
    (Reason::IsDir, || FsError::IsDir),
    (Reason::NameTooLong, || FsError::NameTooLong),
    (Reason::EntryNotFound, || FsError::EntryNotFound),
    (Reason::EntryExist, || FsError::EntryExist),
    (Reason::DirNotEmpty, || FsError::DirNotEmpty),
    (Reason::FileTaken, || FsError::DeviceError(EEXIST)),
    (Reason::TooManyLinks, || FsError::NoDeviceSpace),
    (Reason::TableFull, || FsError::Busy),
    (Reason::NoDeviceSpace, || FsError::NoDeviceSpace),
    (Reason::WrongFs, || FsError::WrongFs),
    (Reason::Stuck, || FsError::DeviceError(EIO)),
    (Reason::OutFull, || FsError::InvalidParam),
    (Reason::NotFile, || FsError::NotFile),
    (Reason::FileTooBig, || FsError::FileTooBig),
    (Reason::SymLoop, || FsError::SymLoop),
    (Reason::InUse, || FsError::Busy),
];

/// The error of a reason; a number that no call gives is an error of the device.
pub fn fs_error(reason: Reason) -> FsError {
    ERRORS.iter().find(|(of, _)| *of == reason).map_or(FsError::DeviceError(EIO), |(_, make)| make())
}
