//! The table of errors has every reason once.
use dzomrelig::Reason;
use dzomrelig_mount::{fs_error, ERRORS};
use rcore_fs::dev::EIO;
use rcore_fs::vfs::FsError;

#[test]
fn every_reason_has_its_error() {
    let reasons: Vec<Reason> = ERRORS.iter().map(|(reason, _)| *reason).collect();
    assert_eq!(reasons, Reason::all().collect::<Vec<_>>());
    for (reason, make) in ERRORS {
        assert_eq!(fs_error(reason), make());
    }
}

/// Those that SEFS has itself keep their names.
#[test]
fn the_same_names() {
    let names = ["InvalidParam", "NotDir", "DirRemoved", "IsDir", "NameTooLong", "EntryNotFound", "EntryExist", "DirNotEmpty"];
    for reason in Reason::all().filter(|reason| names.contains(&reason.name()) || ["NotFile", "WrongFs"].contains(&reason.name())) {
        assert_eq!(format!("{:?}", fs_error(reason)), reason.name());
    }
}

#[test]
fn a_number_that_no_call_gives() {
    assert_eq!(fs_error(Reason::Unknown(77)), FsError::DeviceError(EIO));
}
