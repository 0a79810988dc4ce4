//! Safe functions over those of the library for files. No other file of this module calls an `unsafe` function.
use super::crash::{Crash, Place};
use super::foreign::*;
use super::record::Call;
use crate::Error;
use crate::foreign::{BAD_LINE, CHANGES, DONE, NO_MEMORY, POWER_LOSS, Ran};
use crate::library::{copied, text_of};
use crate::limits::Recorded;
use crate::record::Asked;
use crate::session::{self, Functions, Raw};
use std::ptr;

/// A session of files.
pub(crate) type Session = session::Session<RawFiles>;

impl Raw for RawFiles {
    type Asked = RawCall;
    const CLOSED: RawFiles = RawFiles {
        at: ptr::null_mut(),
        is_open: false,
    };
    const FUNCTIONS: Functions<RawFiles> = Functions {
        open: blobcrash_files_open,
        fork: blobcrash_files_fork,
        push_words: blobcrash_files_push_words,
        words_left: blobcrash_files_words_left,
        power: blobcrash_files_power,
        power_on: blobcrash_files_power_on,
        power_off_after: blobcrash_files_power_off_after,
        kept_run: blobcrash_files_kept_run,
        close: blobcrash_files_close,
    };
}

impl Asked for RawCall {
    fn line(&self, path: &[u8], to: &[u8]) -> String {
        let (at, len) = (path.as_ptr(), path.len());
        // SAFETY: the call, the paths and the buffer are borrowed for the call, and don't overlap.
        text_of(96 + 4 * len + 4 * to.len(), |into, room| unsafe {
            blobcrash_files_line_of(self, at, len, to.as_ptr(), to.len(), into, room)
        })
    }
}

/// The longest name in bytes.
const NAME_MAX: usize = 255;

/// A name in a directory: its bytes, its inode, and whether that is a directory.
pub(crate) type Name = (Vec<u8>, u64, bool);

impl Session {
    /// Makes a setting.
    pub(crate) fn configure(&mut self, setting: &str) -> Result<(), Error> {
        let (at, len) = (setting.as_ptr(), setting.len());
        // SAFETY: the files are open. They and the text are borrowed for the call.
        match unsafe { blobcrash_files_configure(&mut self.raw, at, len) } {
            DONE => Ok(()),
            BAD_LINE => Err(Error::BadLine(setting.to_owned())),
            _ => Err(Error::OutOfMemory),
        }
    }

    /// Makes a call, and records it.
    pub(crate) fn call(&mut self, call: &Call<'_>) -> Result<Reply, Error> {
        let outcome = self.apply(call);
        let opened = outcome.as_ref().map(|reply| call.opened(reply.number));
        self.push(call, opened);
        outcome
    }

    /// Makes a call, and doesn't record it.
    pub(crate) fn apply(&mut self, call: &Call<'_>) -> Result<Reply, Error> {
        let (path, len) = (call.path.as_ptr(), call.path.len());
        let (to, to_len) = (call.to.as_ptr(), call.to.len());
        // SAFETY: as for `configure`; the numbers and the paths are borrowed for the call.
        let reply =
            unsafe { blobcrash_files_apply(&mut self.raw, &call.asked, path, len, to, to_len) };
        self.done(reply.status).map(|()| reply)
    }

    /// Writes bytes at an offset of a file.
    pub(crate) fn write(&mut self, file: u64, offset: u64, bytes: &[u8]) -> Result<(), Error> {
        let (at, len) = (bytes.as_ptr(), bytes.len());
        // SAFETY: as for `configure`; the bytes are borrowed for the call.
        let status = unsafe { blobcrash_files_write(&mut self.raw, file, offset, at, len) };
        let outcome = self.done(status);
        let call = Call::of_bytes(Kind::Write, file, [offset, 0], bytes);
        self.push(&call, outcome.as_ref().map(|()| None));
        outcome
    }

    /// Fills a part of `into` with the bytes of a file from an offset on. Returns how many there were.
    pub(crate) fn read(&mut self, file: u64, offset: u64, into: &mut [u8]) -> Result<usize, Error> {
        let (at, capacity) = (into.as_mut_ptr(), into.len());
        // SAFETY: as for `configure`; the buffer is borrowed for the call.
        let ran = unsafe { blobcrash_files_read(&mut self.raw, file, offset, at, capacity) };
        let outcome = self.done(ran.status);
        let call = Call::of_bytes(Kind::Read, file, [offset, capacity as u64], b"");
        self.push(&call, outcome.as_ref().map(|()| None));
        outcome.map(|()| ran.len.min(capacity))
    }

    /// Returns the error of a status.
    fn done(&mut self, status: u32) -> Result<(), Error> {
        match status {
            DONE => Ok(()),
            POWER_LOSS => Err(self.lost_power()),
            other => Err(Error::of(other, "")),
        }
    }

    /// Returns `PowerLoss` if the power is off.
    pub(crate) fn check_power(&mut self) -> Result<(), Error> {
        if self.power().is_off {
            return Err(self.lost_power());
        }
        Ok(())
    }

    /// Records a call that was made. A comment says which file it opened, or why it was refused.
    fn push(&mut self, call: &Call<'_>, outcome: Result<Option<u64>, &Error>) {
        let Some(record) = &mut self.record else {
            return;
        };
        let remark = match outcome {
            Ok(Some(number)) => format!(" # is {number}"),
            Ok(None) => String::new(),
            Err(Error::PowerLoss) => return,
            Err(error) => format!(" # is {error:?}"),
        };
        record.push(call.asked, call.path, call.to, &remark);
    }

    /// Returns the name with an index of the last call, a `List`, or `None` if it has no such name.
    pub(crate) fn name(&mut self, index: usize) -> Result<Option<Name>, Error> {
        let raw = &mut self.raw;
        let (mut number, mut is_directory) = (0, false);
        let name = copied(NAME_MAX, |at, capacity| {
            // SAFETY: as for `configure`; the buffer is borrowed for the call.
            let reply = unsafe { blobcrash_files_name(raw, index, at, capacity) };
            (number, is_directory) = (reply.number, reply.kind == 1);
            let (status, len) = (reply.status, reply.size as usize);
            Ran { status, len }
        });
        match name {
            Ok(name) => Ok(Some((name, number, is_directory))),
            Err(NO_MEMORY) => Err(Error::OutOfMemory),
            Err(_) => Ok(None),
        }
    }

    /// Returns what the last call, a `Crash` with this reply, kept.
    pub(crate) fn kept(&mut self, reply: &Reply) -> Crash {
        Crash {
            writes: self.kept_writes(reply.size),
            edits: (0..reply.number as usize)
                .map(|edit| self.kept_edit(edit))
                .collect(),
            places: (0..reply.size as usize)
                .map(|row| self.kept_place(row))
                .collect(),
        }
    }

    fn kept_place(&mut self, row: usize) -> Place {
        // SAFETY: as for `configure`.
        let reply = unsafe { blobcrash_files_kept_place(&mut self.raw, row) };
        Place {
            inode: (reply.status == DONE && reply.number > 0).then_some(reply.number),
            offset: reply.size,
        }
    }

    fn kept_edit(&mut self, edit: usize) -> bool {
        // SAFETY: as for `configure`.
        let ran = unsafe { blobcrash_files_kept_edit(&mut self.raw, edit) };
        ran.status == DONE && ran.len == 1
    }
}

/// Returns whether what a crash leaves may differ after a call.
pub(crate) fn changes(kind: Kind) -> bool {
    // SAFETY: the function takes a number.
    unsafe { blobcrash_files_effect(kind as u32) & CHANGES != 0 }
}
