//! Streams, folders, files and disks that the system closes or that are full.

use std::fs::{self, Permissions};
use std::os::unix::fs::PermissionsExt;
use std::os::unix::process::CommandExt;
use std::path::Path;
use std::process::Command;

use crate::day::{LIST, STATE, TABLE};
use crate::odd::{ROWS, USAGE};
use crate::pair::{wrong, Pair, Tried};
use crate::shown::whole_print;
use trials::{End, Fed, Printed};

/// The program with its arguments, started by this script.
fn by_shell<'a>(script: &'a str, arguments: &'a [&str]) -> impl Fn(&Path) -> Command + 'a {
    move |program| {
        let mut command = Command::new("sh");
        command
            .args(["-c", script, "sh"])
            .arg(program)
            .args(arguments);
        command
    }
}

/// No file may have as many bytes as a state.
pub fn cut_off(pair: &mut Pair) -> Tried<()> {
    let before = pair.get(STATE)?;
    let script = "trap '' XFSZ; ulimit -f 8; exec \"$@\"";
    let said = "cannot write state: the system refuses it with error 27\n";
    for (arguments, answers) in [
        (["events", STATE, LIST], Some("")),
        (["fresh", TABLE, STATE], None),
    ] {
        let printed = pair.ask_by(by_shell(script, &arguments), |_| Fed::Nothing)?;
        pair.is(&arguments, &printed, answers, said)?;
    }
    pair.kept("a file that is cut off", &before)
}

pub fn full_streams(pair: &mut Pair) -> Tried<()> {
    let before = pair.get(STATE)?;
    let full = "exec \"$@\" >/dev/full";
    let calls: [&[&str]; 4] = [
        &["events", STATE, LIST],
        &["fresh", TABLE, "other"],
        &["report", STATE],
        &["report", TABLE],
    ];
    for call in calls {
        let printed = pair.ask_by(by_shell(full, call), |_| Fed::Nothing)?;
        let said = "cannot write the results: the disk is full\n";
        pair.is(call, &printed, None, said)?;
    }
    pair.kept("a heading that cannot be written", &before)?;
    for call in calls {
        let script = "exec \"$@\" 2>/dev/full";
        let printed = pair.ask_by(by_shell(script, call), |_| Fed::Nothing)?;
        if !printed.error.is_empty() {
            let asked = format!("live {call:?} 2>/dev/full");
            return wrong(&asked, &whole_print(&printed));
        }
    }
    Ok(())
}

/// The second program finds /dev/null there, since Rust's library puts it there.
pub fn closed_output(pair: &mut Pair) -> Tried<()> {
    let folder = pair.folders[0].clone();
    let calls: [&[&str]; 3] = [
        &["events", STATE, LIST],
        &["report", STATE],
        &["fresh", TABLE, STATE],
    ];
    for call in calls {
        let before = pair.get(STATE)?;
        for close in ["exec \"$@\" >&-", "exec \"$@\" <&- >&-"] {
            let mut command = by_shell(close, call)(&pair.programs.live[0]);
            let printed = Printed::by(&mut command, &Fed::Nothing, &folder)?;
            let said = "cannot write the results: standard output is closed\n";
            pair.is(call, &printed, None, said)?;
            // A file must not get the number of what is closed.
            pair.kept("standard output that is closed", &before)?;
        }
    }
    Ok(())
}

/// Who is neither root nor the owner of anything.
const NOBODY: u32 = 65_534;

fn is_root() -> bool {
    fs::read_to_string("/proc/self/status").is_ok_and(|status| {
        let line = status.lines().find(|line| line.starts_with("Uid:"));
        line.is_some_and(|line| line.split_whitespace().nth(2) == Some("0"))
    })
}

/// The program as a user that permissions hold for.
fn as_user<'a>(arguments: &'a [&str]) -> impl Fn(&Path) -> Command + 'a {
    move |program| {
        let mut command = Command::new(program);
        if is_root() {
            command.uid(NOBODY).gid(NOBODY);
        }
        command.args(arguments);
        command
    }
}

/// Whether the programs can be run as such a user; says so if not.
fn users_can(pair: &mut Pair, name: &str) -> Tried<bool> {
    let can = pair.ask_by(as_user(&[]), |_| Fed::Nothing);
    let can = can.is_ok_and(|printed| printed.error == USAGE.as_bytes());
    if !can {
        let why = "since another user than root may not run the programs here";
        pair.tally.skipped.push(format!("{name}: skipped, {why}"));
    }
    Ok(can)
}

pub fn closed_folder(pair: &mut Pair) -> Tried<()> {
    if !users_can(pair, "a folder that may not be written")? {
        return Ok(());
    }
    let state = pair.get(STATE)?;
    let allow = |pair: &Pair, mode: u32| {
        let mode = Permissions::from_mode(mode);
        pair.each(|folder| fs::set_permissions(folder.join("closed"), mode.clone()))
    };
    pair.each(|folder| fs::create_dir(folder.join("closed")))?;
    pair.put("closed/state", &state)?;
    allow(pair, 0o555)?;
    let tried = in_closed_folder(pair, &state);
    // It must be open to be removed.
    allow(pair, 0o755)?;
    tried
}

fn in_closed_folder(pair: &mut Pair, state: &[u8]) -> Tried<()> {
    let [name, other] = ["closed/state", "closed/other"];
    for (arguments, answers, unwritten) in [
        (["events", name, LIST], Some(""), name),
        (["fresh", TABLE, name], None, name),
        (["fresh", TABLE, other], None, other),
    ] {
        let printed = pair.ask_by(as_user(&arguments), |_| Fed::Nothing)?;
        let said = format!("cannot write {unwritten}: this user may not write it\n");
        pair.is(&arguments, &printed, answers, &said)?;
    }
    let report = pair.ask_by(as_user(&["report", name]), |_| Fed::Nothing)?;
    match report.end == End::Status(0) && pair.get(name)? == state {
        true => Ok(()),
        false => wrong("a folder that may not be written", &whole_print(&report)),
    }
}

pub fn closed_files(pair: &mut Pair) -> Tried<()> {
    if !users_can(pair, "files that may not be read")? {
        return Ok(());
    }
    let closed = Permissions::from_mode(0o200);
    pair.put("closed", ROWS.as_bytes())?;
    pair.each(|folder| fs::set_permissions(folder.join("closed"), closed.clone()))?;
    let said = "cannot read closed: this user may not read it\n";
    let calls: [(&[&str], Option<&str>); 4] = [
        (&["report", "closed"], None),
        (&["events", "closed", LIST], None),
        (&["events", STATE, "closed"], Some("")),
        (&["fresh", "closed", STATE], None),
    ];
    for (arguments, answers) in calls {
        let printed = pair.ask_by(as_user(arguments), |_| Fed::Nothing)?;
        pair.is(arguments, &printed, answers, said)?;
    }
    Ok(())
}

/// A small disk of its own, which no one else sees and which is gone with the program. The state on
/// it leaves no room for another one.
pub fn full_disk(pair: &mut Pair) -> Tried<()> {
    let can = "mount -t tmpfs -o size=80k none small";
    pair.each(|folder| fs::create_dir(folder.join("small")))?;
    let mut trial = Command::new("unshare");
    trial
        .args(["-Urm", "sh", "-c", can])
        .current_dir(&pair.folders[0]);
    if !trial.output().is_ok_and(|done| done.status.success()) {
        let why = "since a small disk cannot be made without privileges";
        pair.tally
            .skipped
            .push(format!("a disk that is full: skipped, {why}"));
        return Ok(());
    }
    let script = format!(
        "{can} && cp state small/state && \"$@\"; status=$?; cp small/* .; ls small >left; exit $status"
    );
    let before = pair.get(STATE)?;
    let said = "cannot write small/state: the disk is full\n";
    for (arguments, answers) in [
        (["events", "small/state", LIST], Some("")),
        (["fresh", TABLE, "small/state"], None),
    ] {
        let by = |program: &Path| {
            let mut command = Command::new("unshare");
            command.args(["-Urm", "sh", "-c", &script, "sh"]);
            command.arg(program).args(arguments);
            command
        };
        let printed = pair.ask_by(by, |_| Fed::Nothing)?;
        pair.is(&arguments, &printed, answers, said)?;
        pair.kept("a disk that is full", &before)?;
        if pair.get("left")? != b"state\n" {
            return wrong("a disk that is full", "something else is left on it");
        }
    }
    Ok(())
}
