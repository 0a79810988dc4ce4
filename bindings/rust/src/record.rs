//! The record of a session: the words of its generator, and a line for each call that was made.
use crate::paths::Words;
use crate::script::words_line;
use std::mem;
use std::sync::Arc;

/// The numbers of a call, of which the library makes the line.
pub(crate) trait Asked: Copy {
    /// Returns the line of the call with its two names or paths. The bytes of a write are one of them.
    fn line(&self, one: &[u8], other: &[u8]) -> String;
}

/// The calls that were made, as lines of a script.
#[derive(Clone, Debug)]
pub(crate) struct Record<A> {
    /// The words that it begins with, until words are pushed.
    given: Words,
    /// The words that calls had taken when words were pushed last.
    taken: Vec<u64>,
    /// The words after those, the next one last: so a push costs the same however many words weren't taken.
    ahead: Vec<u64>,
    /// The lines before the calls.
    preamble: Arc<str>,
    lines: Vec<Line<A>>,
    /// The names, the paths and the bytes of writes of all calls, one after another.
    bytes: Vec<u8>,
    /// The texts of all lines.
    texts: String,
}

#[derive(Clone, Copy, Debug)]
struct Line<A> {
    /// The call, if the line isn't a text alone.
    asked: Option<A>,
    /// How many bytes its two names or paths have.
    one: usize,
    other: usize,
    /// How many bytes the text has at the end of the line.
    text: usize,
}

impl<A: Asked> Record<A> {
    /// A record that begins with these words and lines.
    pub(crate) fn new(given: Words, preamble: Arc<str>) -> Record<A> {
        Record {
            given,
            taken: Vec::new(),
            ahead: Vec::new(),
            preamble,
            lines: Vec::with_capacity(8),
            bytes: Vec::with_capacity(64),
            texts: String::new(),
        }
    }

    /// Inserts words before the last `left` ones.
    pub(crate) fn push_words(&mut self, words: &[u64], left: usize) {
        let given = mem::take(&mut self.given);
        self.ahead.extend(given.as_slice().iter().rev());
        let taken = self.ahead.drain(left.min(self.ahead.len())..);
        self.taken.extend(taken.rev());
        self.ahead.extend(words.iter().rev());
    }

    pub(crate) fn push_line(&mut self, line: &str) {
        self.add(None, b"", b"", line);
    }

    /// Adds a comment, a line for each of the text's.
    pub(crate) fn note(&mut self, text: &str) {
        text.split('\n')
            .for_each(|line| self.push_line(&format!("# {line}")));
    }

    /// Adds a call, with a comment at its end.
    pub(crate) fn push(&mut self, asked: A, one: &[u8], other: &[u8], remark: &str) {
        self.add(Some(asked), one, other, remark);
    }

    fn add(&mut self, asked: Option<A>, one: &[u8], other: &[u8], text: &str) {
        self.bytes.extend_from_slice(one);
        self.bytes.extend_from_slice(other);
        self.texts.push_str(text);
        let (one, other, text) = (one.len(), other.len(), text.len());
        self.lines.push(Line {
            asked,
            one,
            other,
            text,
        });
    }

    /// The text of all lines.
    pub(crate) fn text(&self) -> String {
        let words = self.taken.iter().chain(self.ahead.iter().rev());
        let words: Vec<u64> = words.chain(self.given.as_slice()).copied().collect();
        words_line(&words) + &self.calls()
    }

    /// The text of the lines after the words.
    pub(crate) fn calls(&self) -> String {
        let mut all = (*self.preamble).to_owned();
        let (mut bytes, mut texts) = (self.bytes.as_slice(), self.texts.as_str());
        for line in &self.lines {
            let (one, rest) = bytes.split_at(line.one);
            let (other, rest) = rest.split_at(line.other);
            let (text, more) = texts.split_at(line.text);
            if let Some(asked) = &line.asked {
                all += &asked.line(one, other);
            }
            all = all + text + "\n";
            (bytes, texts) = (rest, more);
        }
        all
    }
}
