use super::foreign::Kind;
use super::record::Call;
use super::state::State;
use super::{FileType, Files, Metadata};
use crate::Error;
use std::io::{self, Read, Seek, SeekFrom, Write};
use std::os::unix::fs::FileExt;
use std::sync::MutexGuard;
use std::sync::atomic::{AtomicU64, Ordering};

/// An open file, which is closed when it is dropped. It refers to the file, not to a name.
///
/// It has the traits of `std::fs::File`: [`Read`], [`Write`] and [`Seek`] with a position, and [`FileExt`] at offsets. A write writes all
/// of its bytes or returns an error, after which some may be written. After a crash each use returns `StaleHandle`, and while the power is
/// off `PowerLoss`.
///
/// ```
/// use std::io::{Read, Seek, Write};
/// use std::os::unix::fs::FileExt;
///
/// # let files = blobcrash::files::Files::builder().seed(7).open()?;
/// let mut file = files.create_new("/f")?;
/// file.write_all(b"record")?;
/// file.rewind()?;
/// let mut text = String::new();
/// file.read_to_string(&mut text)?;
/// assert_eq!(text, "record");
/// file.write_all_at(b"d", 4)?;
/// file.sync_all()?;
/// files.crash()?;
/// assert_eq!(files.read("/f")?, b"recodd");
/// assert!(file.metadata().is_err());
/// # Ok::<(), std::io::Error>(())
/// ```
#[derive(Debug)]
pub struct File {
    pub(crate) files: Files,
    pub(crate) descriptor: u64,
    /// How many crashes there were when the file was opened.
    pub(crate) life: u64,
    pub(crate) position: AtomicU64,
    pub(crate) reads: bool,
    pub(crate) writes: bool,
    pub(crate) appends: bool,
}

impl File {
    /// Truncates the file to a length, or extends it by zeros. The length is durable when the file is synced.
    ///
    /// Errors: `Argument` if the file isn't open for writing; `NoSpace` beyond a limit of bytes; `OffsetOverflow`; `Injected`, which
    /// may leave a length between the two if the file gets shorter.
    ///
    /// ```
    /// # let files = blobcrash::files::Files::builder().seed(7).open()?;
    /// files.create("/f")?.set_len(2)?;
    /// assert_eq!(files.read("/f")?, [0, 0]);
    /// # Ok::<(), blobcrash::Error>(())
    /// ```
    pub fn set_len(&self, len: u64) -> Result<(), Error> {
        let mut state = self.writable()?;
        let call = Call::of_number(Kind::Truncate, self.descriptor, len);
        state.call(&call).map(drop)
    }

    /// Makes the file's bytes and size durable, and the changes of names that the profile adds: as `fsync`.
    ///
    /// Errors: `Injected` and `Memory`. The names and bytes that calls see stay; some changes of names may be durable.
    ///
    /// ```
    /// # use std::io::Write;
    /// # let files = blobcrash::files::Files::builder().seed(7).open()?;
    /// let mut file = files.create("/f")?;
    /// file.write_all(b"abc")?;
    /// file.sync_all()?;
    /// files.crash()?;
    /// assert_eq!(files.read("/f")?, b"abc");
    /// # Ok::<(), std::io::Error>(())
    /// ```
    pub fn sync_all(&self) -> Result<(), Error> {
        self.by_number(Kind::Sync)
    }

    /// Makes the file's bytes and size durable: as `fdatasync`. Errors as `sync_all`.
    ///
    /// ```
    /// # let files = blobcrash::files::Files::builder().seed(7).open()?;
    /// files.create("/f")?.sync_data()?;
    /// # Ok::<(), blobcrash::Error>(())
    /// ```
    pub fn sync_data(&self) -> Result<(), Error> {
        self.by_number(Kind::SyncData)
    }

    /// Returns the number and the size of the file.
    ///
    /// ```
    /// # let files = blobcrash::files::Files::builder().seed(7).open()?;
    /// assert_eq!(files.create("/f")?.metadata()?.len(), 0);
    /// # Ok::<(), blobcrash::Error>(())
    /// ```
    pub fn metadata(&self) -> Result<Metadata, Error> {
        let mut state = self.usable()?;
        let len = state.by_number(Kind::Size, self.descriptor)?.size;
        let inode = state.by_number(Kind::InodeOf, self.descriptor)?.number;
        Ok(Metadata::new(inode, FileType::of(false), len))
    }

    fn size(&self) -> Result<u64, Error> {
        let reply = self.usable()?.by_number(Kind::Size, self.descriptor)?;
        Ok(reply.size)
    }

    /// Returns the number of the file's descriptor, by which lines of the record name it.
    ///
    /// ```
    /// # let files = blobcrash::files::Files::builder().seed(7).open()?;
    /// assert_ne!(files.create("/f")?.descriptor(), files.create("/g")?.descriptor());
    /// # Ok::<(), blobcrash::Error>(())
    /// ```
    #[must_use]
    pub fn descriptor(&self) -> u64 {
        self.descriptor
    }

    fn by_number(&self, kind: Kind) -> Result<(), Error> {
        self.usable()?.by_number(kind, self.descriptor).map(drop)
    }

    /// Takes the lock, if the file isn't from before a crash.
    fn usable(&self) -> Result<MutexGuard<'_, State>, Error> {
        let mut state = self.files.lock();
        if state.life != self.life {
            state.limits.count_call()?;
            return Err(Error::StaleHandle("the files have crashed since"));
        }
        Ok(state)
    }

    fn readable(&self) -> Result<MutexGuard<'_, State>, Error> {
        if !self.reads {
            return Err(Error::argument("the file isn't open for reading"));
        }
        self.usable()
    }

    fn writable(&self) -> Result<MutexGuard<'_, State>, Error> {
        if !self.writes {
            return Err(Error::argument("the file isn't open for writing"));
        }
        self.usable()
    }

    /// The place of a read or a write: an offset, or without one the position, which then changes under the lock.
    fn from(&self, offset: Option<u64>) -> u64 {
        offset.unwrap_or_else(|| self.position.load(Ordering::Relaxed))
    }

    fn advance(&self, offset: Option<u64>, to: u64) {
        if offset.is_none() {
            self.position.store(to, Ordering::Relaxed);
        }
    }

    /// Fills a part of a buffer.
    fn read_from(&self, offset: Option<u64>, into: &mut [u8]) -> Result<usize, Error> {
        let mut state = self.readable()?;
        let from = self.from(offset);
        let len = state.read(self.descriptor, from, into)?;
        self.advance(offset, from + len as u64);
        Ok(len)
    }

    /// Appends all bytes from a place on to a vector.
    pub(crate) fn read_all(&self, offset: Option<u64>, into: &mut Vec<u8>) -> Result<usize, Error> {
        let mut state = self.readable()?;
        let from = self.from(offset);
        let size = state.by_number(Kind::Size, self.descriptor)?.size;
        let before = into.len();
        let more = usize::try_from(size.saturating_sub(from)).map_err(|_| Error::OutOfMemory)?;
        into.try_reserve(more).map_err(|_| Error::OutOfMemory)?;
        into.resize(before + more, 0);
        let read = state.read(self.descriptor, from, &mut into[before..]);
        let len = *read.as_ref().unwrap_or(&0);
        into.truncate(before + len);
        self.advance(offset, from + len as u64);
        read
    }

    /// Writes all bytes. Without an offset a file that is open for appending is written at its end.
    pub(crate) fn write_from(&self, offset: Option<u64>, bytes: &[u8]) -> Result<usize, Error> {
        let mut state = self.writable()?;
        let mut from = self.from(offset);
        let appends = self.appends && offset.is_none();
        if appends || bytes.is_empty() {
            let size = state.by_number(Kind::Size, self.descriptor)?.size;
            from = if appends { size } else { from };
        }
        // An empty write changes nothing, also beyond the end.
        if !bytes.is_empty() {
            state.write(self.descriptor, from, bytes)?;
            self.advance(offset, from.saturating_add(bytes.len() as u64));
        }
        Ok(bytes.len())
    }
}

impl Read for &File {
    fn read(&mut self, into: &mut [u8]) -> io::Result<usize> {
        Ok(self.read_from(None, into)?)
    }

    fn read_to_end(&mut self, into: &mut Vec<u8>) -> io::Result<usize> {
        Ok(self.read_all(None, into)?)
    }
}

impl Write for &File {
    fn write(&mut self, bytes: &[u8]) -> io::Result<usize> {
        Ok(self.write_from(None, bytes)?)
    }

    fn flush(&mut self) -> io::Result<()> {
        Ok(())
    }
}

impl Seek for &File {
    fn seek(&mut self, to: SeekFrom) -> io::Result<u64> {
        let (from, by) = match to {
            SeekFrom::Start(offset) => (offset, 0),
            SeekFrom::Current(by) => (self.position.load(Ordering::Relaxed), by),
            SeekFrom::End(by) => (self.size()?, by),
        };
        let at = from.checked_add_signed(by);
        let at = at.ok_or_else(|| Error::argument("a position is from 0 to 2^64 - 1"))?;
        self.position.store(at, Ordering::Relaxed);
        Ok(at)
    }
}

impl Read for File {
    fn read(&mut self, into: &mut [u8]) -> io::Result<usize> {
        (&*self).read(into)
    }

    fn read_to_end(&mut self, into: &mut Vec<u8>) -> io::Result<usize> {
        (&*self).read_to_end(into)
    }
}

impl Write for File {
    fn write(&mut self, bytes: &[u8]) -> io::Result<usize> {
        (&*self).write(bytes)
    }

    fn flush(&mut self) -> io::Result<()> {
        Ok(())
    }
}

impl Seek for File {
    fn seek(&mut self, to: SeekFrom) -> io::Result<u64> {
        (&*self).seek(to)
    }
}

/// Reads and writes at offsets, without the position.
impl FileExt for File {
    fn read_at(&self, into: &mut [u8], offset: u64) -> io::Result<usize> {
        Ok(self.read_from(Some(offset), into)?)
    }

    fn write_at(&self, bytes: &[u8], offset: u64) -> io::Result<usize> {
        Ok(self.write_from(Some(offset), bytes)?)
    }
}

impl Drop for File {
    fn drop(&mut self) {
        let mut state = self.files.lock();
        if state.life == self.life {
            // Without power it isn't closed: the crash ends it.
            let _ = state.by_number(Kind::Close, self.descriptor);
        }
    }
}
