//! The functions of the C library that processes are ended with, and the one that knows a terminal. Rust's own library has none of
//! them in the version that this package builds with.

use std::io;
use std::os::raw::c_int;
use std::os::unix::process::CommandExt;
use std::process::Command;

extern "C" {
    fn isatty(descriptor: c_int) -> c_int;
    fn kill(process: c_int, signal: c_int) -> c_int;
    fn setpgid(process: c_int, group: c_int) -> c_int;
}

/// The signal that no process can catch.
const KILL: c_int = 9;

/// The descriptor of standard error.
pub const STANDARD_ERROR: i32 = 2;

pub fn is_terminal(descriptor: i32) -> bool {
    // SAFETY: the call takes any number, and touches no memory of ours.
    unsafe { isatty(descriptor) == 1 }
}

/// Has the command started in a process group that is there already, or, for 0, in a new one that has the number of the process.
pub fn in_group(command: &mut Command, group: u32) -> &mut Command {
    let group = group as c_int;
    // SAFETY: setpgid takes any numbers, touches no memory, and is one of the calls that are allowed between fork and exec; the
    // error is made of a number, without allocating.
    unsafe {
        command.pre_exec(move || match setpgid(0, group) {
            0 => Ok(()),
            _ => Err(io::Error::last_os_error()),
        })
    }
}

/// Ends a process that was started here and has not been waited for, or only just: its number must not be another's by then.
pub fn end_process(process: u32) {
    send(process as c_int);
}

/// Ends all processes of a group whose first process was started here and has not been waited for.
pub fn end_group(group: u32) {
    send(-(group as c_int));
}

/// A process that has ended already is left as it is, so a failure says nothing.
fn send(process: c_int) {
    // SAFETY: the call takes any number, and touches no memory of ours.
    unsafe { kill(process, KILL) };
}

#[cfg(test)]
mod tests {
    use super::{end_group, end_process, in_group, is_terminal};
    use std::os::unix::process::ExitStatusExt;
    use std::process::{Child, Command};

    fn sleeper(group: u32) -> Child {
        in_group(Command::new("/bin/sleep").arg("1000"), group).spawn().unwrap()
    }

    #[test]
    fn a_group_is_ended_as_a_whole_and_a_process_alone() {
        let mut first = sleeper(0);
        let (mut second, mut third) = (sleeper(first.id()), sleeper(first.id()));
        end_process(second.id());
        assert_eq!(second.wait().unwrap().signal(), Some(9));
        assert!(first.try_wait().unwrap().is_none() && third.try_wait().unwrap().is_none());
        end_group(first.id());
        assert_eq!(third.wait().unwrap().signal(), Some(9));
        assert_eq!(first.wait().unwrap().signal(), Some(9));
    }

    #[test]
    fn nothing_is_started_where_the_group_is_not_there() {
        let mut first = sleeper(0);
        let group = first.id();
        end_group(group);
        first.wait().unwrap();
        assert!(in_group(Command::new("/bin/sleep").arg("1000"), group).spawn().is_err());
    }

    #[test]
    fn what_is_not_open_is_no_terminal() {
        assert!(!is_terminal(-1));
    }
}
