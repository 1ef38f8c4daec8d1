//! Writes a sheet from text.

use std::env;
use std::fs;
use std::io::{self, Write};
use std::process::ExitCode;

const HELP: &str = "\
use: sheet [FILE]

Reads text from the file, or from standard input (-), and writes the sheet's bytes to standard output. The text:

    a b:                  # the names of the atoms, and a colon
    a | b <- not K b      # a rule ends with its line or with ;
    <- a, M b; b <- not not a
    a <> b                # a pair: a and b are opposites

Literals: a, not a, not not a, K a, not K a, M a, not M a.
Status: 0; 1 where the text is wrong; 2 where it can't be read or the sheet can't be written.
";

/// Says what is wrong; the status that goes with it.
fn failed(message: String, status: u8) -> ExitCode {
    eprintln!("{message}");
    ExitCode::from(status)
}

/// Writes all of it; the status.
fn write(bytes: &[u8]) -> ExitCode {
    match io::stdout().write_all(bytes).and_then(|()| io::stdout().flush()) {
        Ok(()) => ExitCode::SUCCESS,
        Err(error) => failed(format!("standard output: {error}"), 2),
    }
}

fn main() -> ExitCode {
    let arguments: Vec<String> = env::args_os().skip(1).map(|name| name.to_string_lossy().into_owned()).collect();
    let (name, read) = match &arguments[..] {
        [] => ("standard input", io::read_to_string(io::stdin())),
        [dash] if dash == "-" => ("standard input", io::read_to_string(io::stdin())),
        [help] if help == "--help" || help == "-h" => return write(HELP.as_bytes()),
        [file] if !file.starts_with('-') => (file.as_str(), fs::read_to_string(file)),
        _ => return failed(HELP.to_string(), 2),
    };
    let text = match read {
        Ok(text) => text,
        Err(error) => return failed(format!("{name}: {error}"), 2),
    };
    match trial::text::sheet(&text) {
        Ok(sheet) => write(&sheet),
        Err(wrong) => failed(format!("{name}:{}:{}: {}", wrong.line, wrong.column, wrong.message), 1),
    }
}
