//! Calls on files, and what their record says of a crash.
use super::foreign::{Kind, RawCall};
use crate::Selections;
use crate::record::Record;

/// A call with the numbers and the paths that its kind uses.
#[derive(Debug)]
pub(crate) struct Call<'a> {
    pub(crate) asked: RawCall,
    pub(crate) path: &'a [u8],
    pub(crate) to: &'a [u8],
}

impl Call<'_> {
    /// A call by a path.
    pub(crate) fn of_path(kind: Kind, path: &[u8]) -> Call<'_> {
        Call::of_paths(kind, 0, path, b"")
    }

    /// A call by two paths. `first` says what a rename does if the second one is taken.
    pub(crate) fn of_paths<'a>(kind: Kind, first: u64, path: &'a [u8], to: &'a [u8]) -> Call<'a> {
        Call {
            path,
            to,
            ..Call::of_number(kind, 0, first)
        }
    }

    /// A call by a number.
    pub(crate) fn of_number(kind: Kind, number: u64, first: u64) -> Call<'static> {
        Call::of_bytes(kind, number, [first, 0], b"")
    }

    /// A read or a write of a file. The bytes of a write are the path.
    pub(crate) fn of_bytes(kind: Kind, number: u64, range: [u64; 2], bytes: &[u8]) -> Call<'_> {
        let [first, last] = range;
        Call {
            asked: RawCall {
                kind,
                number,
                first,
                last,
            },
            path: bytes,
            to: b"",
        }
    }

    /// Returns the number that a call returned which opens a file.
    pub(crate) fn opened(&self, number: u64) -> Option<u64> {
        let opens = matches!(
            self.asked.kind,
            Kind::Create | Kind::Open | Kind::OpenTruncated
        );
        opens.then_some(number)
    }
}

impl Record<RawCall> {
    /// Says what a crash kept.
    pub(crate) fn push_kept(&mut self, writes: &Selections, edits: &[bool]) {
        if !edits.is_empty() {
            let digits = edits.iter().map(|kept| if *kept { '1' } else { '0' });
            let digits: String = digits.collect();
            self.note(&format!("of the unsettled edits it keeps {digits}"));
        }
        for (write, kept) in writes {
            let runs = runs_of(kept);
            self.note(&format!(
                "of write {write} it keeps {runs} of {}",
                kept.len()
            ));
        }
    }
}

/// The runs of bytes that were kept, as text.
fn runs_of(kept: &[bool]) -> String {
    let (mut runs, mut start) = (Vec::new(), 0);
    for run in kept.chunk_by(|one, next| one == next) {
        if run[0] {
            runs.push(format!("bytes {start} to {}", start + run.len() - 1));
        }
        start += run.len();
    }
    if runs.is_empty() {
        return "none".to_owned();
    }
    runs.join(", ")
}
