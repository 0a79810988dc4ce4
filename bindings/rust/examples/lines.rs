//! Runs a script from standard input through a session, a line at a time, or with `--whole` as a whole: its replies are the
//! program's (`docs/FORMATS.md`). With `--explain` it prints what `blobcrash explain` prints.
use blobcrash::{Error, ScriptError, Store, explain_script, run_script};
use std::io::{Read, Write};
use std::process::ExitCode;

fn main() -> ExitCode {
    let mut script = Vec::new();
    let mut output = std::io::stdout().lock();
    if std::io::stdin().read_to_end(&mut script).is_err() {
        return ExitCode::from(1);
    }
    let word = std::env::args().nth(1).unwrap_or_default();
    let (replies, bad) = if word == "--whole" || word == "--explain" {
        let run = if word == "--whole" {
            run_script
        } else {
            explain_script
        };
        match run(&script) {
            Ok(replies) => (replies, None),
            Err(ScriptError::BadCall { line, replies }) => (replies, Some(line)),
            Err(ScriptError::Refused) => return ExitCode::from(3),
        }
    } else {
        match by_lines(&script) {
            Ok(ran) => ran,
            Err(_) => return ExitCode::from(3),
        }
    };
    if output.write_all(&replies).is_err() {
        return ExitCode::from(1);
    }
    match bad {
        None => ExitCode::SUCCESS,
        Some(line) => {
            eprintln!("line {line}: bad call");
            ExitCode::from(2)
        }
    }
}

/// The replies, and the number of the line that is bad.
fn by_lines(script: &[u8]) -> Result<(Vec<u8>, Option<u64>), Error> {
    let mut lines = script.split(|byte| *byte == b'\n');
    let mut store: Option<Store> = None;
    let mut preamble = Vec::new();
    let mut replies = Vec::new();
    for (number, line) in (1..).zip(&mut lines) {
        // A text that isn't UTF-8 is no line.
        let Ok(line) = std::str::from_utf8(line) else {
            return Ok((replies, Some(number)));
        };
        let word = line.split(' ').find(|token| !token.is_empty());
        if store.is_none() && word.is_some_and(|w| ["image", "words", "seed"].contains(&w)) {
            preamble.push(line);
            if let Err(Error::BadLine(_)) = Store::builder().lines(&preamble).open() {
                return Ok((replies, Some(number)));
            }
            continue;
        }
        if word.is_none_or(|word| word.starts_with('#')) {
            continue;
        }
        if store.is_none() {
            store = Some(Store::builder().lines(&preamble).open()?);
        }
        match store.as_ref().map(|store| store.call(line)) {
            Some(Ok(reply)) => {
                replies.extend_from_slice(reply.as_bytes());
                replies.push(b'\n');
            }
            Some(Err(Error::BadLine(_))) => return Ok((replies, Some(number))),
            Some(Err(error)) => return Err(error),
            None => {}
        }
    }
    Ok((replies, None))
}
