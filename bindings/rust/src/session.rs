//! What a session of a store and one of files have alike, over functions of the library.
use crate::foreign::*;
use crate::library::selections;
use crate::limits::Recorded;
use crate::paths::Words;
use crate::record::{Asked, Record};
use crate::{Error, Selections};
use std::mem;
use std::sync::Arc;

/// A session that belongs to the library: of a store, or of files.
pub(crate) trait Raw: Sized + 'static {
    /// The numbers of a call.
    type Asked: Asked;
    /// One that isn't open.
    const CLOSED: Self;
    const FUNCTIONS: Functions<Self>;
}

/// The functions that both kinds of a session have. Each takes a session that is open, except `open` and the second one of `fork`.
pub(crate) struct Functions<R> {
    pub(crate) open: unsafe extern "C" fn(*mut R, *const u8, usize) -> ScriptRan,
    pub(crate) fork: unsafe extern "C" fn(*mut R, *mut R) -> u32,
    pub(crate) push_words: unsafe extern "C" fn(*mut R, *const u64, usize) -> u32,
    pub(crate) words_left: unsafe extern "C" fn(*mut R) -> Ran,
    pub(crate) power: unsafe extern "C" fn(*mut R) -> PowerState,
    pub(crate) power_on: unsafe extern "C" fn(*mut R) -> u32,
    pub(crate) power_off_after: unsafe extern "C" fn(*mut R, u64) -> u32,
    pub(crate) kept_run: unsafe extern "C" fn(*mut R, usize, usize) -> KeptRun,
    pub(crate) close: unsafe extern "C" fn(*mut R),
}

/// An open session, which is closed when it is dropped.
///
/// `&mut self` prevents two calls at the same time. The session may be moved: the library keeps no address of it between calls.
#[derive(Debug)]
pub(crate) struct Session<R: Raw> {
    pub(crate) raw: R,
    /// The reply line of a store's last call.
    pub(crate) reply: Vec<u8>,
    /// The calls that were made, if they are recorded.
    pub(crate) record: Option<Record<R::Asked>>,
    /// Whether a call wasn't made since the power went off.
    has_lost: bool,
}

// SAFETY: nothing of a session belongs to a thread. The library has no thread-local data and no global data that changes, and its
// blocks come from the process's allocator, which any thread may call. Calls of one session are ordered: each takes `&mut self`. Sessions
// may share pages: no call writes a shared page, and the counts of pages are atomic.
unsafe impl<R: Raw> Send for Session<R> {}

impl<R: Raw> Session<R> {
    /// Opens a session with the lines before a script's calls.
    pub(crate) fn open(preamble: &str) -> Result<Session<R>, Error> {
        let mut session = Session {
            raw: R::CLOSED,
            reply: Vec::new(),
            record: None,
            has_lost: false,
        };
        let (at, len) = (preamble.as_ptr(), preamble.len());
        // SAFETY: the session is all zeros, and the text is borrowed for the call.
        let ran = unsafe { (R::FUNCTIONS.open)(&mut session.raw, at, len) };
        match ran.status {
            DONE => Ok(session),
            BAD_LINE => {
                let line = preamble.split('\n').nth(ran.line as usize - 1);
                Err(Error::BadLine(line.unwrap_or_default().to_owned()))
            }
            _ => Err(Error::OutOfMemory),
        }
    }

    /// Opens a session with the lines before a script's calls and with these words, and begins its record unless none is kept.
    pub(crate) fn begin(
        preamble: &Arc<str>,
        words: Words,
        unrecorded: bool,
    ) -> Result<Session<R>, Error> {
        let mut session = Session::open(preamble)?;
        session.push_words(words.as_slice())?;
        session.record = (!unrecorded).then(|| Record::new(words, Arc::clone(preamble)));
        Ok(session)
    }

    /// Returns another session in the state of this one, with a copy of the record.
    pub(crate) fn fork(&mut self) -> Result<Session<R>, Error> {
        let mut other = Session {
            raw: R::CLOSED,
            reply: Vec::new(),
            record: self.record.clone(),
            has_lost: self.has_lost,
        };
        // SAFETY: the first session is open, the second is closed, and both are borrowed for the call.
        match unsafe { (R::FUNCTIONS.fork)(&mut self.raw, &mut other.raw) } {
            DONE => Ok(other),
            status => Err(Error::of(status, "")),
        }
    }

    /// Inserts words before those that the generator gives next.
    pub(crate) fn push_words(&mut self, words: &[u64]) -> Result<(), Error> {
        let (at, count) = (words.as_ptr(), words.len());
        // SAFETY: the session is open. It and the words are borrowed for the call.
        let status = unsafe { (R::FUNCTIONS.push_words)(&mut self.raw, at, count) };
        (status == DONE).then_some(()).ok_or(Error::OutOfMemory)
    }

    /// Notes the first call that isn't made since the power is off.
    #[cold]
    pub(crate) fn lost_power(&mut self) -> Error {
        if !mem::replace(&mut self.has_lost, true) && !self.power().has_crashed {
            self.note("power loss");
        }
        Error::PowerLoss
    }

    /// Returns which bytes of each write the last call, a crash with this many rows, kept.
    pub(crate) fn kept_writes(&mut self, rows: u64) -> Selections {
        let raw = &mut self.raw;
        // SAFETY: the session is open, and borrowed for the call.
        selections(rows, |row, from| unsafe {
            (R::FUNCTIONS.kept_run)(raw, row, from)
        })
    }

    /// Returns the lines of the record, or an empty text.
    pub(crate) fn script(&self) -> String {
        self.record.as_ref().map(Record::text).unwrap_or_default()
    }
}

impl<R: Raw> Recorded for Session<R> {
    fn words_left(&mut self) -> Option<usize> {
        // SAFETY: as for `kept_writes`.
        let ran = unsafe { (R::FUNCTIONS.words_left)(&mut self.raw) };
        (ran.status != ENDLESS).then_some(ran.len)
    }

    fn note(&mut self, text: &str) {
        if let Some(record) = &mut self.record {
            record.note(text);
        }
    }

    fn power(&mut self) -> PowerState {
        // SAFETY: as for `kept_writes`.
        unsafe { (R::FUNCTIONS.power)(&mut self.raw) }
    }

    fn set_power(&mut self, calls: Option<u64>) {
        self.has_lost = false;
        // SAFETY: as for `kept_writes`.
        unsafe {
            (R::FUNCTIONS.power_on)(&mut self.raw);
            if let Some(calls) = calls {
                (R::FUNCTIONS.power_off_after)(&mut self.raw, calls);
            }
        }
    }

    fn has_lost(&self) -> bool {
        self.has_lost
    }
}

impl<R: Raw> Drop for Session<R> {
    fn drop(&mut self) {
        // SAFETY: the session is borrowed for the call, and isn't used again.
        unsafe { (R::FUNCTIONS.close)(&mut self.raw) }
    }
}
