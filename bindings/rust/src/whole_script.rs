//! Whole scripts, without a session.
use crate::foreign::{BAD_LINE, DONE, NO_ROOM, ScriptRan};
use crate::library;
use std::fmt;

/// Why a script was cut short.
///
/// ```
/// use blobcrash::{ScriptError, run_script};
///
/// let error = run_script(b"frob\n").unwrap_err();
/// assert_eq!(error, ScriptError::BadCall { line: 1, replies: Vec::new() });
/// assert_eq!(error.to_string(), "line 1: bad call");
/// ```
#[derive(Clone, Debug, PartialEq, Eq)]
pub enum ScriptError {
    /// A line is no call.
    BadCall {
        /// The line's number, from 1.
        line: u64,
        /// The replies of the lines before it; of [`explain_script`] with their remarks, of [`explain_script_json`] as JSON.
        replies: Vec<u8>,
    },
    /// The library is out of memory, or the number of lines overflows.
    Refused,
}

impl fmt::Display for ScriptError {
    fn fmt(&self, f: &mut fmt::Formatter<'_>) -> fmt::Result {
        match self {
            ScriptError::BadCall { line, .. } => write!(f, "line {line}: bad call"),
            ScriptError::Refused => f.write_str("no memory"),
        }
    }
}

impl std::error::Error for ScriptError {}

/// Runs a whole script, and returns what the program prints: a line for each call.
///
/// ```
/// use blobcrash::{ScriptError, run_script};
///
/// assert_eq!(run_script(b"open p 62\nsize 0\n").unwrap(), b"opened 0 0 0\nsize 0\n");
/// let replies = b"crashed\n".to_vec();
/// assert_eq!(run_script(b"crash\nfrob\n"), Err(ScriptError::BadCall { line: 2, replies }));
/// ```
pub fn run_script(script: &[u8]) -> Result<Vec<u8>, ScriptError> {
    whole(script, library::run)
}

/// Runs a whole script, and returns what `blobcrash explain` prints: the replies, with remarks between them, lines that begin with
/// `# `. After a crash they show what it kept and lost of each file, and after other calls what the reply doesn't say
/// (`docs/FORMATS.md`).
///
/// ```
/// use blobcrash::{ScriptError, explain_script};
///
/// let explained = b"opened 0 0 0\nok\nok\ncrashed 0:1
/// ## p 62: length 0 before, 1 after
/// ##   write 0 0..1: 1 kept
/// ##   at 0
/// ##     before
/// ##     write 0  78
/// ##     after    78
/// ".to_vec();
/// let script = b"open p 62\nconfig write 0 1 1 2 subset\nwrite 0 0 78\ncrash\n".to_vec();
/// assert_eq!(explain_script(&script).as_ref(), Ok(&explained));
/// let error = ScriptError::BadCall { line: 5, replies: explained };
/// assert_eq!(explain_script(&[script, b"frob\n".to_vec()].concat()), Err(error));
/// ```
pub fn explain_script(script: &[u8]) -> Result<Vec<u8>, ScriptError> {
    whole(script, library::explain)
}

/// Runs a whole script, and returns what `blobcrash explain --json` prints: an object a line, for each call and for what it drew, kept
/// and lost (`docs/FORMATS.md`).
///
/// ```
/// use blobcrash::explain_script_json;
///
/// let script = b"open p 62\nconfig write 0 1 1 2 subset\nwrite 0 0 78\ncrash\n";
/// let objects = String::from_utf8(explain_script_json(script).unwrap()).unwrap();
/// assert!(objects.contains(r#""write": 0, "of": 3, "partition": "p", "name": "62", "kept": [[0, 1]]"#));
/// ```
pub fn explain_script_json(script: &[u8]) -> Result<Vec<u8>, ScriptError> {
    whole(script, library::explain_json)
}

/// Returns what a function of the library writes for a script.
fn whole(script: &[u8], run: fn(&[u8], &mut [u8]) -> ScriptRan) -> Result<Vec<u8>, ScriptError> {
    let mut text = vec![0; 4096];
    loop {
        let ran = run(script, &mut text);
        match ran.status {
            NO_ROOM => text.resize(ran.len, 0),
            DONE => {
                text.truncate(ran.len);
                return Ok(text);
            }
            BAD_LINE => {
                text.truncate(ran.len);
                let line = ran.line;
                return Err(ScriptError::BadCall {
                    line,
                    replies: text,
                });
            }
            _ => return Err(ScriptError::Refused),
        }
    }
}
