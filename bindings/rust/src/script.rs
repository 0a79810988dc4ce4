//! Lines of a script: how arguments become parts of one.
//!
//! No text of a caller is put into a line before it is known to be one token of its kind.
use crate::Error;

/// The line of a raw blob. Its partition may be no partition name, but it must be one token.
pub(crate) fn image_line(partition: &str, name: &[u8], raw: &[u8]) -> Result<String, Error> {
    if partition.is_empty() || partition.contains([' ', '\n']) {
        return Err(Error::Argument(format!(
            "the partition of an image is a text without spaces and line feeds, not {partition:?}"
        )));
    }
    Ok(format!("image {partition} {} {}", hex(name), hex(raw)))
}

/// The line that gives words to the generator, with its line feed. Without words it is empty.
pub(crate) fn words_line(words: &[u64]) -> String {
    if words.is_empty() {
        return String::new();
    }
    let words: Vec<String> = words.iter().map(u64::to_string).collect();
    format!("words {}\n", words.join(" "))
}

/// Checks that a text is one line.
pub(crate) fn one_line(line: &str) -> Result<(), Error> {
    if line.contains('\n') {
        return Err(Error::BadLine(line.to_owned()));
    }
    Ok(())
}

pub(crate) fn hex(bytes: &[u8]) -> String {
    if bytes.is_empty() {
        return "-".to_owned();
    }
    bytes.iter().map(|byte| format!("{byte:02x}")).collect()
}

pub(crate) fn unhex(word: &str) -> Option<Vec<u8>> {
    if word == "-" {
        return Some(Vec::new());
    }
    (0..word.len())
        .step_by(2)
        .map(|at| u8::from_str_radix(word.get(at..at + 2)?, 16).ok())
        .collect()
}

/// The tokens of a line.
pub(crate) fn tokens(line: &str) -> Vec<&str> {
    line.split(' ').filter(|token| !token.is_empty()).collect()
}

/// The first token of a line, `#` for a comment, or an empty one.
pub(crate) fn first_word(line: &str) -> &str {
    match line.split(' ').find(|token| !token.is_empty()) {
        Some(comment) if comment.starts_with('#') => "#",
        Some(word) => word,
        None => "",
    }
}
