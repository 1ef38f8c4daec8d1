//! Writes the stored requests of the program `calls` and the lines owed for them, or compares them.

use std::env;
use std::fs;
use std::path::PathBuf;
use std::process::ExitCode;
use trial::cases::{owed, Owed};

const HELP: &str = "\
use: requests [--check]

Writes crates/calls/stdin and crates/calls/stdout from the cases. With --check they are only compared, and the first
case that differs is named.";

/// The most bytes of all lines.
const MOST_LINES: usize = 550_000;

fn stored(name: &str) -> PathBuf {
    PathBuf::from(env!("CARGO_MANIFEST_DIR")).join("../../crates/calls").join(name)
}

/// The first case that is not stored as it is made.
fn difference(cases: &[Owed], mut requests: &[u8], mut lines: &[u8]) -> Option<String> {
    for Owed { title, request, line } in cases {
        let rest = (requests.strip_prefix(request.as_slice()), lines.strip_prefix(line.as_bytes()));
        let (Some(more_requests), Some(more_lines)) = rest else { return Some(title.clone()) };
        (requests, lines) = (more_requests, more_lines);
    }
    (!requests.is_empty() || !lines.is_empty()).then(|| "after the last case".to_string())
}

fn run(check: bool) -> Result<(), String> {
    let cases = owed()?;
    let requests: Vec<u8> = cases.iter().flat_map(|case| case.request.clone()).collect();
    let lines: String = cases.iter().map(|case| case.line.as_str()).collect();
    if lines.len() > MOST_LINES {
        return Err(format!("{} bytes of lines, and at most {MOST_LINES} are stored", lines.len()));
    }
    let failed = |error| format!("crates/calls/stdin or crates/calls/stdout: {error}");
    if check {
        let stdin = fs::read(stored("stdin")).map_err(failed)?;
        let stdout = fs::read(stored("stdout")).map_err(failed)?;
        if let Some(title) = difference(&cases, &stdin, &stdout) {
            return Err(format!("not stored as it is made: {title}"));
        }
    } else {
        fs::write(stored("stdin"), &requests).and_then(|()| fs::write(stored("stdout"), &lines)).map_err(failed)?;
    }
    println!("{} cases, {} bytes of requests, {} bytes of lines", cases.len(), requests.len(), lines.len());
    Ok(())
}

fn main() -> ExitCode {
    let arguments: Vec<String> = env::args().skip(1).collect();
    let result = match arguments.join(" ").as_str() {
        "" => run(false),
        "--check" => run(true),
        _ => Err(HELP.to_string()),
    };
    match result {
        Ok(()) => ExitCode::SUCCESS,
        Err(message) => {
            eprintln!("{message}");
            ExitCode::FAILURE
        }
    }
}
