//! The programs `calls` and `views`, run on bytes: standard input is fed while standard output is read.

use crate::request::Request;
use std::io::{ErrorKind, Read, Write};
use std::path::PathBuf;
use std::process::{Child, ChildStdin, Command, Stdio};
use std::thread::{self, JoinHandle};

/// Where a program stands: in the folder `out` of its crate.
fn path(name: &str) -> PathBuf {
    let path = PathBuf::from(env!("CARGO_MANIFEST_DIR")).join("../../crates").join(name).join("out").join(name);
    assert!(path.is_file(), "{} is missing: run `rt run < /dev/null` in crates/{name} first", path.display());
    path
}

/// Starts a program with both ends piped.
pub fn start(name: &str) -> Child {
    let mut command = Command::new(path(name));
    command.stdin(Stdio::piped()).stdout(Stdio::piped());
    command.spawn().unwrap_or_else(|error| panic!("{name} does not start: {error}"))
}

/// Writes bytes by pieces from a thread, then closes the pipe. The program may end before it has read all.
pub fn feed(mut stdin: ChildStdin, input: Vec<u8>, piece: usize) -> JoinHandle<()> {
    thread::spawn(move || {
        for part in input.chunks(piece) {
            match stdin.write_all(part).and_then(|()| stdin.flush()) {
                Err(error) if error.kind() == ErrorKind::BrokenPipe => return,
                result => result.expect("standard input takes bytes"),
            }
        }
    })
}

/// All that a program prints for an input that comes by pieces of so many bytes.
pub fn output(name: &str, input: Vec<u8>, piece: usize) -> Vec<u8> {
    let mut child = start(name);
    let feeder = feed(child.stdin.take().expect("piped"), input, piece);
    let mut printed = Vec::new();
    child.stdout.take().expect("piped").read_to_end(&mut printed).expect("standard output can be read");
    feeder.join().expect("standard input was fed");
    let status = child.wait().expect("the program ends");
    assert!(status.code().is_some(), "{name} was stopped: {status}");
    printed
}

/// The line of `calls` for each of these requests.
pub fn lines_of(requests: &[Request]) -> Vec<String> {
    let printed = output("calls", requests.iter().flat_map(Request::bytes).collect(), 1 << 16);
    let printed = String::from_utf8(printed).expect("calls prints text");
    let lines: Vec<String> = printed.lines().map(str::to_string).collect();
    assert_eq!(lines.len(), requests.len(), "a line for each request");
    lines
}
