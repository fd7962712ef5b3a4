//! What every program says of a file that the system does not let it read.

use std::fs::{self, File};
use std::io::ErrorKind;
use std::os::unix::fs::{symlink, PermissionsExt};
use std::path::{Path, PathBuf};

use crate::common::calls::calls;
use crate::common::files::{by, failed, file, path};

/// Puts this name into each place for a file of each program.
fn says(test: &str, name: impl AsRef<Path>, why: &str) {
    let name = name.as_ref();
    let expected = failed(&format!("cannot read {}: {why}", name.display()));
    for call in calls(test) {
        for place in 0..call.files {
            let call = call.with(place, name);
            assert_eq!(by(&mut call.command()), expected, "{call:?}");
        }
    }
}

#[test]
fn a_missing_file() {
    let none = "there is no such file";
    for name in ["", "no such file", "-x", "--", "no such folder/file"] {
        says("unread_missing", name, none);
    }
    says("unread_missing", path("missing"), none);
}

#[test]
fn a_file_as_a_folder() {
    let name = file("unread_plain", b"").join("file");
    says("unread_below", name, "there is no such file");
}

#[test]
fn a_folder() {
    for name in [Path::new("/"), Path::new("."), &path("")] {
        says("unread_folder", name, "it is a folder");
    }
}

/// One file is closed to all users but root, who may read the other no more than they may.
#[test]
fn a_file_that_this_user_may_not_read() {
    let closed = file("unread_closed", b"");
    fs::set_permissions(&closed, fs::Permissions::from_mode(0o200))
        .expect("the file can be closed");
    let denied = |name: &PathBuf| {
        let error = File::open(name).err();
        error.is_some_and(|error| error.kind() == ErrorKind::PermissionDenied)
    };
    let names = [closed, PathBuf::from("/proc/sys/vm/compact_memory")];
    for name in names.iter().filter(|name| denied(name)) {
        says("unread_denied", name, "this user may not read it");
    }
}

#[test]
fn a_name_that_is_too_long() {
    let long = "its name is too long";
    says("unread_long", "x".repeat(256), long);
    says("unread_long", "x/".repeat(2_500), long);
    says("unread_long", "x".repeat(255), "there is no such file");
}

#[test]
fn any_other_error_has_its_number() {
    let ring = path("unread_ring");
    // It may be there from a test before this one.
    let _ = symlink(&ring, &ring);
    says("unread_other", ring, "the system refuses it with error 40");
    let memory = "/proc/self/mem";
    says("unread_other", memory, "the system refuses it with error 5");
}
