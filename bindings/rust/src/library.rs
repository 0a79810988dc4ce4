//! Safe functions over those of the library that a store has alone, or that need no session. `unsafe` functions are called here, in
//! `session` and in `paths`, and those of files in `files/library`.
use crate::debt_calls::{DebtCall, DebtReply};
use crate::foreign::*;
use crate::script::first_word;
use crate::session::{self, Functions, Raw};
use crate::{Error, Selections, record};
use std::ptr;

/// A session of a store.
pub(crate) type Session = session::Session<RawSession>;

impl Raw for RawSession {
    type Asked = Asked;
    const CLOSED: RawSession = RawSession {
        at: ptr::null_mut(),
        is_open: false,
    };
    const FUNCTIONS: Functions<RawSession> = Functions {
        open: blobcrash_open,
        fork: blobcrash_fork_session,
        push_words: blobcrash_push_words,
        words_left: blobcrash_words_left,
        power: blobcrash_power,
        power_on: blobcrash_power_on,
        power_off_after: blobcrash_power_off_after,
        kept_run: blobcrash_kept_run,
        close: blobcrash_close,
    };
}

impl record::Asked for Asked {
    fn line(&self, partition: &[u8], name: &[u8]) -> String {
        let mut line = line_of(self, partition, name);
        // The library leaves these out, since an open without versions accepts 0 alone.
        if self.kind <= Kind::OpenLoose as u32 && (self.first, self.last) == (0, 0) {
            line.push_str(" 0 0");
        }
        line
    }
}

/// A read of more bytes asks for the size of the blob before it allocates.
const SMALL: usize = 65536;

impl Session {
    /// Makes the call of a line and returns its reply line.
    pub(crate) fn call(&mut self, line: &str) -> Result<&str, Error> {
        let ran = self.ran(line)?;
        if let Some(record) = &mut self.record {
            record.push_line(line);
        }
        self.told(ran)
    }

    /// Returns the size that a handle tracks, without a call. `None` if there is no such handle.
    pub(crate) fn tracked_size(&mut self, handle: usize) -> Option<u64> {
        // SAFETY: the session is open, and borrowed for the call.
        let reply = unsafe { blobcrash_tracked_size(&mut self.raw, handle) };
        (reply.status == DONE).then_some(reply.size)
    }

    /// Returns the first bytes of the reply line that was returned last.
    pub(crate) fn text(&self, len: usize) -> &str {
        std::str::from_utf8(&self.reply[..len]).expect("replies to UTF-8 lines are UTF-8")
    }

    /// Makes a typed call through a handle or a started sync, or one of the whole store.
    #[inline(always)]
    pub(crate) fn by_number(
        &mut self,
        kind: Kind,
        number: usize,
        len: u64,
    ) -> Result<TypedReply, Error> {
        self.applied(kind, number, [len, 0], "", b"")
    }

    /// Makes a typed call of a partition and a name, with the versions that an open accepts.
    pub(crate) fn by_name(
        &mut self,
        kind: Kind,
        partition: &str,
        name: &[u8],
        versions: [u16; 2],
    ) -> Result<TypedReply, Error> {
        let reply = self.applied(kind, 0, versions.map(u64::from), partition, name);
        reply.map_err(|error| match error {
            Error::PartitionNameInvalid(_) => Error::PartitionNameInvalid(partition.to_owned()),
            other => other,
        })
    }

    /// Makes a typed call. Returns the numbers of its reply, or the refusal.
    #[inline(always)]
    fn applied(
        &mut self,
        kind: Kind,
        number: usize,
        [first, last]: [u64; 2],
        partition: &str,
        name: &[u8],
    ) -> Result<TypedReply, Error> {
        let asked = Asked {
            kind: kind as u32,
            number,
            first,
            last,
        };
        let (of, of_len) = (partition.as_ptr(), partition.len());
        let raw = &mut self.raw;
        // SAFETY: as for `call`; the numbers and the names are borrowed for the call.
        let reply = unsafe { blobcrash_apply(raw, &asked, of, of_len, name.as_ptr(), name.len()) };
        self.took(reply.status, asked, partition, name)?;
        Ok(reply)
    }

    /// Records a typed call that was made. Returns its refusal.
    #[inline(always)]
    fn took(&mut self, status: u32, asked: Asked, of: &str, name: &[u8]) -> Result<(), Error> {
        if self.record.is_some() && (status == DONE || status >= FIRST_REFUSAL) {
            self.push(asked, of.as_bytes(), name);
        }
        if status == DONE {
            return Ok(());
        }
        Err(self.refusal(status))
    }

    #[cold]
    fn refusal(&mut self, status: u32) -> Error {
        if status == POWER_LOSS {
            return self.lost_power();
        }
        let unread = Ran {
            status: NO_ROOM,
            len: 0,
        };
        self.told(unread)
            .map_or_else(|e| e, |reply| Error::of(status, reply))
    }

    #[cold]
    fn push(&mut self, asked: Asked, partition: &[u8], name: &[u8]) {
        if let Some(record) = &mut self.record {
            record.push(asked, partition, name, "");
        }
    }

    /// Returns the refusal of the last call, whose reply line has this many bytes. `None` if it was done.
    pub(crate) fn last_refusal(&mut self, len: usize) -> Option<Error> {
        // SAFETY: as for `call`.
        let status = unsafe { blobcrash_last(&mut self.raw) }.status;
        (status != DONE).then(|| Error::of(status, self.text(len)))
    }

    /// Makes the call of a line and records nothing.
    fn ran(&mut self, line: &str) -> Result<Ran, Error> {
        let (room, at) = (self.reply.len(), self.reply.as_mut_ptr());
        // SAFETY: the session is open. It, the line and the buffer are borrowed for the call, and don't overlap.
        let ran = unsafe { blobcrash_call(&mut self.raw, line.as_ptr(), line.len(), at, room) };
        match ran.status {
            BAD_LINE => Err(Error::BadLine(line.to_owned())),
            NO_MEMORY => Err(Error::OutOfMemory),
            POWER_LOSS => Err(self.lost_power()),
            _ => Ok(ran),
        }
    }

    /// Writes bytes through a handle.
    #[inline(always)]
    pub(crate) fn write(
        &mut self,
        handle: usize,
        offset: u64,
        bytes: &[u8],
        sync: bool,
    ) -> Result<(), Error> {
        let (at, len) = (bytes.as_ptr(), bytes.len());
        // SAFETY: as for `call`; the bytes are borrowed for the call.
        let status = unsafe { blobcrash_write(&mut self.raw, handle, offset, at, len, sync) };
        let kind = if sync { Kind::WriteSync } else { Kind::Write };
        self.took(status, moved(kind, handle, offset, 0), "", bytes)
    }

    /// Returns `len` bytes that are read through a handle. Doesn't allocate for a length that the blob doesn't have.
    pub(crate) fn read_vec(
        &mut self,
        handle: usize,
        offset: u64,
        len: usize,
    ) -> Result<Vec<u8>, Error> {
        if len > SMALL && !self.has(handle, offset, len) {
            let line = line_of(&moved(Kind::Read, handle, offset, len), b"", b"");
            let len = self.call(&line)?.len();
            return Err(self.last_refusal(len).unwrap_or(Error::OutOfMemory));
        }
        let mut bytes = Vec::new();
        bytes
            .try_reserve_exact(len)
            .map_err(|_| Error::OutOfMemory)?;
        bytes.resize(len, 0);
        self.read(handle, offset, &mut bytes)?;
        Ok(bytes)
    }

    /// Returns whether a blob has bytes up to the end of a range, by the size that the handle tracks.
    fn has(&mut self, handle: usize, offset: u64, len: usize) -> bool {
        let end = offset.checked_add(len as u64);
        let size = self.tracked_size(handle);
        end.zip(size).is_some_and(|(end, size)| end <= size)
    }

    /// Fills `into` with bytes that are read through a handle.
    #[inline(always)]
    pub(crate) fn read(
        &mut self,
        handle: usize,
        offset: u64,
        into: &mut [u8],
    ) -> Result<(), Error> {
        let (at, len) = (into.as_mut_ptr(), into.len());
        // SAFETY: as for `call`; the buffer is borrowed for the call.
        let status = unsafe { blobcrash_read(&mut self.raw, handle, offset, at, len) };
        self.took(status, moved(Kind::Read, handle, offset, len), "", b"")
    }

    /// Makes a call of the session's registry of durability debt. `already` is the error of a name that is open.
    pub(crate) fn owe(
        &mut self,
        call: DebtCall,
        partition: &str,
        name: &[u8],
        already: impl FnOnce() -> Error,
    ) -> Result<DebtReply, Error> {
        let (of, of_len) = (partition.as_ptr(), partition.len());
        let raw = &mut self.raw;
        // SAFETY: as for `call`; the numbers and the names are borrowed for the call.
        let reply = unsafe { blobcrash_debt(raw, &call, of, of_len, name.as_ptr(), name.len()) };
        reply.taken(already)
    }

    /// Returns the durable bytes of a blob, or `None` if it doesn't exist, or has no header to leave out.
    pub(crate) fn durable_blob(
        &mut self,
        partition: &str,
        name: &[u8],
        with_header: bool,
    ) -> Result<Option<Vec<u8>>, Error> {
        let (of, of_len) = (partition.as_ptr(), partition.len());
        let (named, named_len) = (name.as_ptr(), name.len());
        let raw = &mut self.raw;
        // SAFETY: as for `call`; the texts and the buffer are borrowed for the call, and don't overlap.
        let copied = copied(SMALL, |at, capacity| unsafe {
            blobcrash_durable_blob(raw, of, of_len, named, named_len, with_header, at, capacity)
        });
        match copied {
            Ok(bytes) => Ok(Some(bytes)),
            Err(BLOB_MISSING) => Ok(None),
            Err(_) => Err(Error::OutOfMemory),
        }
    }

    /// Returns the name with an index in the last reply, that of a scan.
    pub(crate) fn name(&mut self, index: usize) -> Result<Vec<u8>, Error> {
        let raw = &mut self.raw;
        // SAFETY: as for `call`; the buffer is borrowed for the call.
        let copied = copied(256, |at, room| unsafe {
            blobcrash_name(raw, index, at, room)
        });
        copied.map_err(|status| Error::of(status, ""))
    }

    /// Returns the digest of all durable blobs.
    pub(crate) fn audit(&mut self) -> [u8; 4] {
        let mut digest = [0; 4];
        // SAFETY: as for `call`.
        let ran = unsafe { blobcrash_audit(&mut self.raw, digest.as_mut_ptr(), digest.len()) };
        assert_eq!(
            ran.status, DONE,
            "an open session has a digest of four bytes"
        );
        digest
    }

    /// Returns the reply line of a call that was made. Grows the buffer if the reply doesn't fit.
    fn told(&mut self, mut ran: Ran) -> Result<&str, Error> {
        while ran.status == NO_ROOM {
            if let Some(more) = ran.len.checked_sub(self.reply.len()) {
                let reserved = self.reply.try_reserve_exact(more);
                reserved.map_err(|_| Error::OutOfMemory)?;
                self.reply.resize(ran.len, 0);
            }
            let (room, at) = (self.reply.len(), self.reply.as_mut_ptr());
            // SAFETY: as for `call`.
            ran = unsafe { blobcrash_reply(&mut self.raw, at, room) };
        }
        if ran.status != DONE {
            return Err(Error::OutOfMemory);
        }
        Ok(std::str::from_utf8(&self.reply[..ran.len]).expect("replies to UTF-8 lines are UTF-8"))
    }
}

/// A read or a write.
fn moved(kind: Kind, handle: usize, offset: u64, len: usize) -> Asked {
    Asked {
        kind: kind as u32,
        number: handle,
        first: offset,
        last: len as u64,
    }
}

/// Returns what a function of the library copies to a buffer, or the status for which it doesn't. `capacity` is tried first.
pub(crate) fn copied(
    capacity: usize,
    mut copy: impl FnMut(*mut u8, usize) -> Ran,
) -> Result<Vec<u8>, u32> {
    let mut bytes = vec![0; capacity];
    loop {
        let ran = copy(bytes.as_mut_ptr(), bytes.len());
        match ran.status {
            DONE => {
                bytes.truncate(ran.len);
                return Ok(bytes);
            }
            NO_ROOM => {
                let more = ran.len.saturating_sub(bytes.len());
                bytes.try_reserve_exact(more).map_err(|_| NO_MEMORY)?;
                bytes.resize(ran.len, 0);
            }
            other => return Err(other),
        }
    }
}

/// Returns what a function of the library copies to a buffer, a text; an empty one if there is none.
pub(crate) fn text_of(capacity: usize, copy: impl FnMut(*mut u8, usize) -> Ran) -> String {
    let text = copied(capacity, copy).unwrap_or_default();
    String::from_utf8(text).expect("the library's texts are UTF-8")
}

/// Returns the line of a call.
pub(crate) fn line_of(asked: &Asked, partition: &[u8], name: &[u8]) -> String {
    let (of, of_len) = (partition.as_ptr(), partition.len());
    // SAFETY: the call, the names and the buffer are borrowed for the call, and don't overlap.
    text_of(96 + of_len + 2 * name.len(), |at, room| unsafe {
        blobcrash_line_of(asked, of, of_len, name.as_ptr(), name.len(), at, room)
    })
}

/// Returns whether what a crash leaves may differ after a call of a kind.
pub(crate) fn changes(kind: u32) -> bool {
    // SAFETY: the function takes a number.
    unsafe { blobcrash_effect(kind) & CHANGES != 0 }
}

/// Returns the word of a number in a table, or an empty text.
pub(crate) fn word(table: u32, number: u32) -> String {
    // SAFETY: the buffer is borrowed for the call.
    text_of(16, |at, room| unsafe {
        blobcrash_word(table, number, at, room)
    })
}

/// Returns the kind of a line's call. Of a line that is none it is that of a setting.
pub(crate) fn kind_of(line: &str) -> u32 {
    let (first, last) = (first_word(line), Kind::Configure as u32);
    let found = (0..last).find(|kind| word(KINDS, *kind) == first);
    found.unwrap_or(last)
}

/// Returns the choices of a crash's rows, each by its runs of kept bytes at or after an index.
pub(crate) fn selections(rows: u64, mut run: impl FnMut(usize, usize) -> KeptRun) -> Selections {
    let mut row = |row| {
        let mut found = run(row, 0);
        let (write, mut kept) = (found.write, vec![false; found.bytes]);
        while found.status == DONE && found.len > 0 {
            let end = found.start.saturating_add(found.len).min(kept.len());
            kept[found.start.min(end)..end].fill(true);
            if end == kept.len() {
                break;
            }
            found = run(row, end);
        }
        (write, kept)
    };
    (0..rows as usize).map(&mut row).collect()
}

/// Runs a whole script and writes what a function of the library says of it to the start of a buffer.
fn run_by(
    function: unsafe extern "C" fn(*const u8, usize, *mut u8, usize) -> ScriptRan,
    script: &[u8],
    text: &mut [u8],
) -> ScriptRan {
    let (room, at) = (text.len(), text.as_mut_ptr());
    // SAFETY: the script and the buffer are borrowed for the call, and don't overlap.
    unsafe { function(script.as_ptr(), script.len(), at, room) }
}

/// Its replies.
pub(crate) fn run(script: &[u8], replies: &mut [u8]) -> ScriptRan {
    run_by(blobcrash_run, script, replies)
}

/// Its replies, with remarks between them.
pub(crate) fn explain(script: &[u8], text: &mut [u8]) -> ScriptRan {
    run_by(blobcrash_explain, script, text)
}

/// Its explanation as JSON.
pub(crate) fn explain_json(script: &[u8], text: &mut [u8]) -> ScriptRan {
    run_by(blobcrash_explain_json, script, text)
}

/// Parses a header region. `None` if the arguments aren't those of one.
pub(crate) fn parse_header(raw: &[u8], raw_len: u64, accepts: &Accepts) -> Option<ParsedHeader> {
    // SAFETY: the bytes and the numbers are borrowed for the call.
    let parsed = unsafe { blobcrash_parse_header(raw.as_ptr(), raw.len(), raw_len, accepts) };
    (parsed.status != BAD_CALL).then_some(parsed)
}

/// Resolves a header region as an open does. `None` as for `parse_header`.
pub(crate) fn resolve_header(raw: &[u8], raw_len: u64, accepts: &Accepts) -> Option<ParsedHeader> {
    // SAFETY: as for `parse_header`.
    let parsed = unsafe { blobcrash_resolve_header(raw.as_ptr(), raw.len(), raw_len, accepts) };
    (parsed.status != BAD_CALL).then_some(parsed)
}

/// Returns the header region of a new blob with a layout and a version, or the status for which there is none.
pub(crate) fn create_header(layout: u16, version: u16) -> Result<Vec<u8>, u32> {
    // SAFETY: the buffer is borrowed for the call.
    copied(8, |at, room| unsafe {
        blobcrash_create_header(layout, version, at, room)
    })
}

/// Returns whether an interrupted creation in a layout may have left these bytes of a whole blob.
pub(crate) fn is_interrupted_creation(layout: u16, raw: &[u8]) -> bool {
    // SAFETY: the bytes are borrowed for the call.
    unsafe { blobcrash_interrupted_creation(layout, raw.as_ptr(), raw.len()) }
}
