//! Runs a program on an input, so that nothing of it stays behind: not when it ends, not when it is ended, and not when this process
//! is killed.

use std::io::{self, Read, Write};
use std::process::{Child, Command, ExitStatus, Output, Stdio};
use std::sync::mpsc::{sync_channel, Receiver, RecvTimeoutError, SyncSender};
use std::thread;
use std::time::{Duration, Instant};

use crate::system;

/// As much is kept of the end of its messages, in bytes.
const MESSAGES_KEPT: usize = 4 << 10;
/// How often `watch` is called at least.
const TICK: Duration = Duration::from_millis(250);
/// How long pipes are read after the end: a process that has left the group may hold them open.
const GRACE: Duration = Duration::from_secs(1);

/// Why there is no output.
#[derive(Debug)]
pub enum Trouble {
    Run(io::Error),
    /// The deadline has passed.
    Time,
    /// More was printed than is read.
    Flood,
}

/// A process group of its own. Its first process, the guard, waits at a pipe that this process alone holds: when this process is gone,
/// in whatever way, the pipe is closed, and the guard ends the group. Until the guard has been waited for, the group's number is its own.
struct Group {
    guard: Child,
}

impl Group {
    fn new() -> io::Result<Group> {
        let mut command = Command::new("/bin/sh");
        command.args(["-c", "read -r _; kill -KILL 0"]);
        command.stdin(Stdio::piped()).stdout(Stdio::null()).stderr(Stdio::null());
        Ok(Group { guard: system::in_group(&mut command, 0).spawn()? })
    }

    fn number(&self) -> u32 {
        self.guard.id()
    }

    fn end(&self) {
        system::end_group(self.number());
    }
}

impl Drop for Group {
    fn drop(&mut self) {
        self.end();
        // The guard is ended by then, or had ended before.
        let _ = self.guard.wait();
    }
}

enum Event {
    Printed(Vec<u8>),
    Messages(Vec<u8>),
    Ended(io::Result<ExitStatus>),
}

/// Runs the command on an input. `watch` is given all that was printed so far, whenever there is more of it and a few times a second.
/// The program is ended when the deadline passes or when it prints too much; what it has started is ended with it. Of its messages
/// the end is kept.
pub fn run(
    command: &mut Command,
    input: Vec<u8>,
    deadline: Option<Instant>,
    most: usize,
    watch: &mut dyn FnMut(&[u8]),
) -> Result<Output, Trouble> {
    let group = Group::new().map_err(Trouble::Run)?;
    command.stdin(Stdio::piped()).stdout(Stdio::piped()).stderr(Stdio::piped());
    let child = system::in_group(command, group.number()).spawn().map_err(Trouble::Run)?;
    let mut run = Run { process: child.id(), group, most, printed: Vec::new(), messages: Vec::new(), end: None, until: deadline };
    let events = followed(child, input);
    loop {
        let wait = run.until.map_or(TICK, |until| until.saturating_duration_since(Instant::now()).min(TICK));
        match events.recv_timeout(wait) {
            Ok(event) => run.take(event),
            Err(RecvTimeoutError::Timeout) => {}
            Err(RecvTimeoutError::Disconnected) => break,
        }
        watch(&run.printed);
        if run.is_over() && run.end.is_some() {
            break;
        } else if run.is_over() {
            run.stop(Err(Trouble::Time));
        }
    }
    run.outcome()
}

/// A running program.
struct Run {
    process: u32,
    group: Group,
    /// The most that is read of what it prints, in bytes.
    most: usize,
    printed: Vec<u8>,
    messages: Vec<u8>,
    /// How it ended, once it has or was ended.
    end: Option<Result<ExitStatus, Trouble>>,
    /// Until when it may run, or after its end, until when its pipes are read.
    until: Option<Instant>,
}

impl Run {
    fn is_over(&self) -> bool {
        self.until.map_or(false, |until| until <= Instant::now())
    }

    fn take(&mut self, event: Event) {
        match event {
            Event::Printed(bytes) if self.printed.len() + bytes.len() <= self.most => self.printed.extend(bytes),
            Event::Printed(_) => self.stop(Err(Trouble::Flood)),
            Event::Messages(bytes) => {
                self.messages.extend(bytes);
                self.messages.drain(..self.messages.len().saturating_sub(MESSAGES_KEPT));
            }
            Event::Ended(status) => self.stop(status.map_err(Trouble::Run)),
        }
    }

    /// Ends the program and what it has started. The first end counts, but for a flood that was in the pipe yet.
    fn stop(&mut self, end: Result<ExitStatus, Trouble>) {
        if self.end.is_none() {
            self.until = Some(Instant::now() + GRACE);
            self.group.end();
            if matches!(end, Err(Trouble::Time | Trouble::Flood)) {
                // It may have left the group. If it has ended just now, its number is not yet another's.
                system::end_process(self.process);
            }
        }
        if self.end.is_none() || matches!(end, Err(Trouble::Flood)) {
            self.end = Some(end);
        }
    }

    fn outcome(self) -> Result<Output, Trouble> {
        let never = || Err(Trouble::Run(io::Error::new(io::ErrorKind::Other, "its end was not told")));
        let status = self.end.unwrap_or_else(never)?;
        Ok(Output { status, stdout: self.printed, stderr: self.messages })
    }
}

/// What becomes of a process, told by threads of its own: what it prints, its messages, and its end. Its input is written by another,
/// which fails where the process does not read it: then the answer says the rest.
fn followed(mut child: Child, input: Vec<u8>) -> Receiver<Event> {
    let (sender, events) = sync_channel(16);
    if let Some(mut pipe) = child.stdin.take() {
        thread::spawn(move || pipe.write_all(&input));
    }
    if let Some(pipe) = child.stdout.take() {
        read(pipe, sender.clone(), Event::Printed);
    }
    if let Some(pipe) = child.stderr.take() {
        read(pipe, sender.clone(), Event::Messages);
    }
    thread::spawn(move || sender.send(Event::Ended(child.wait())));
    events
}

/// Hands on what comes through a pipe, until it is closed or nobody asks any more.
fn read(mut pipe: impl Read + Send + 'static, sender: SyncSender<Event>, event: fn(Vec<u8>) -> Event) {
    thread::spawn(move || {
        let mut buffer = vec![0; 1 << 16];
        loop {
            match pipe.read(&mut buffer) {
                Ok(0) => return,
                Ok(count) if sender.send(event(buffer[..count].to_vec())).is_err() => return,
                Ok(_) => {}
                Err(error) if error.kind() == io::ErrorKind::Interrupted => {}
                Err(_) => return,
            }
        }
    });
}
