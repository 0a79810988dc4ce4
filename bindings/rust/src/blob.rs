use crate::Error;
use crate::foreign::Kind;
use crate::shared::{Opened, Shared, State};
use std::ops::BitOr;
use std::sync::{Arc, MutexGuard};

/// How a write is done.
///
/// ```
/// use blobcrash::WriteOptions;
///
/// let options = WriteOptions::default() | WriteOptions::SYNC;
/// assert!(options.contains(WriteOptions::SYNC));
/// assert!(!WriteOptions::default().contains(WriteOptions::SYNC));
/// assert_eq!(options.without(WriteOptions::SYNC), WriteOptions::default());
/// ```
#[derive(Clone, Copy, Debug, Default, PartialEq, Eq)]
#[must_use]
pub struct WriteOptions {
    sync: bool,
}

impl WriteOptions {
    /// The bytes are durable when the write returns `Ok`.
    pub const SYNC: WriteOptions = WriteOptions { sync: true };

    /// Returns whether these options have all of the others.
    #[must_use]
    pub const fn contains(self, others: WriteOptions) -> bool {
        self.sync || !others.sync
    }

    /// Returns these options without the others.
    pub const fn without(self, others: WriteOptions) -> WriteOptions {
        WriteOptions {
            sync: self.sync && !others.sync,
        }
    }
}

impl BitOr for WriteOptions {
    type Output = WriteOptions;

    fn bitor(self, others: WriteOptions) -> WriteOptions {
        WriteOptions {
            sync: self.sync || others.sync,
        }
    }
}

/// An open handle of a blob, which is closed when it is dropped.
///
/// After a crash, a reopen or the removal of the blob the handle is stale: it still has its live bytes, which no restart would leave.
/// Each use then returns `StaleHandle`, unless [`Builder::allow_stale`](crate::Builder::allow_stale) or [`Blob::allow_stale`] allows
/// it. While the power is off (see [`Store::crash_after`](crate::Store::crash_after)) each call returns `PowerLoss`.
///
/// ```
/// use blobcrash::{Error, Store, WriteOptions};
///
/// let store = Store::builder().seed(7).open()?;
/// let (blob, _) = store.open("p", b"b")?;
/// blob.write_at(0, b"record", WriteOptions::default())?;
/// assert_eq!(blob.read_at(2, 4)?, b"cord");
/// assert_eq!(blob.read_at(2, usize::MAX), Err(Error::OffsetOverflow));
/// blob.resize(3)?;
/// blob.sync()?;
/// store.restart()?;
/// assert!(matches!(blob.size(), Err(Error::StaleHandle(_))));
/// # Ok::<(), Error>(())
/// ```
#[derive(Debug)]
pub struct Blob {
    pub(crate) shared: Arc<Shared<State>>,
    pub(crate) opened: Arc<Opened>,
    pub(crate) handle: usize,
    pub(crate) version: u16,
}

/// A started sync. If it is dropped it is finished, and its outcome is lost. That makes no draw, and a crash leaves the same
/// whether a sync was finished or not: finishing only frees the sync's entry in the store's table.
///
/// ```
/// let store = blobcrash::Store::builder().seed(7).open()?;
/// let (blob, _) = store.open("p", b"b")?;
/// let started = blob.start_sync()?;
/// started.finish()?;
/// # Ok::<(), blobcrash::Error>(())
/// ```
#[derive(Debug)]
#[must_use = "`finish` returns the outcome"]
pub struct StartedSync {
    shared: Arc<Shared<State>>,
    number: usize,
    /// How often the store was reopened before: a reopen forgets every started sync.
    reopens: u64,
    is_finished: bool,
}

impl Blob {
    /// Returns the handle's number, by which lines of a script name it.
    ///
    /// ```
    /// let store = blobcrash::Store::builder().open()?;
    /// let (blob, _) = store.open("p", b"b")?;
    /// assert_eq!(store.call(&format!("size {}", blob.handle()))?, "size 0");
    /// # Ok::<(), blobcrash::Error>(())
    /// ```
    #[must_use]
    pub fn handle(&self) -> usize {
        self.handle
    }

    /// Returns the blob's version.
    ///
    /// ```
    /// let store = blobcrash::Store::builder().open()?;
    /// let (blob, _) = store.open_versioned("p", b"b", 1..=3)?;
    /// assert_eq!(blob.version(), 3);
    /// # Ok::<(), blobcrash::Error>(())
    /// ```
    #[must_use]
    pub fn version(&self) -> u16 {
        self.version
    }

    /// Returns whether the handle is from before a crash, a reopen or the removal of its blob.
    ///
    /// ```
    /// let store = blobcrash::Store::builder().open()?;
    /// let (blob, _) = store.open("p", b"b")?;
    /// store.remove("p", Some(b"b"))?;
    /// assert!(blob.is_stale());
    /// # Ok::<(), blobcrash::Error>(())
    /// ```
    #[must_use]
    pub fn is_stale(&self) -> bool {
        self.opened.is_stale()
    }

    /// Sets whether the handle may be used when it is stale.
    ///
    /// ```
    /// let store = blobcrash::Store::builder().open()?;
    /// let (blob, _) = store.open("p", b"b")?;
    /// store.remove("p", Some(b"b"))?;
    /// blob.allow_stale(true);
    /// assert_eq!(blob.size()?, 0);
    /// # Ok::<(), blobcrash::Error>(())
    /// ```
    pub fn allow_stale(&self, allow: bool) {
        self.opened.allow_stale(allow);
    }

    /// Returns exactly `len` bytes at a logical offset. Errors: `Injected`, `OffsetOverflow`, `BlobInsufficientLength`, `Memory`,
    /// `OutOfMemory`, `StaleHandle`.
    ///
    /// ```
    /// # use blobcrash::{Error, Store, WriteOptions};
    /// let store = Store::builder().open()?;
    /// let (blob, _) = store.open("p", b"b")?;
    /// blob.write_at(0, b"abc", WriteOptions::default())?;
    /// assert_eq!(blob.read_at(1, 2)?, b"bc");
    /// assert_eq!(blob.read_at(1, 3), Err(Error::BlobInsufficientLength));
    /// # Ok::<(), Error>(())
    /// ```
    pub fn read_at(&self, offset: u64, len: usize) -> Result<Vec<u8>, Error> {
        let mut state = self.usable()?;
        state.permit(Kind::Read)?;
        state.session.read_vec(self.handle, offset, len)
    }

    /// Fills a buffer with the bytes at a logical offset. Errors as `read_at`, with the buffer unchanged.
    ///
    /// ```
    /// # use blobcrash::{Store, WriteOptions};
    /// let store = Store::builder().open()?;
    /// let (blob, _) = store.open("p", b"b")?;
    /// blob.write_at(0, b"abc", WriteOptions::default())?;
    /// let mut buffer = [0; 2];
    /// blob.read_at_buf(1, &mut buffer)?;
    /// assert_eq!(&buffer, b"bc");
    /// # Ok::<(), blobcrash::Error>(())
    /// ```
    pub fn read_at_buf(&self, offset: u64, into: &mut [u8]) -> Result<(), Error> {
        let mut state = self.usable()?;
        state.permit(Kind::Read)?;
        state.session.read(self.handle, offset, into)
    }

    /// Writes bytes at a logical offset, and zeros in a gap before them. They may be lost until they are synced.
    ///
    /// Errors:
    /// - `Injected`. Some of the bytes may be written and durable.
    /// - `OffsetOverflow`, `GenerationsExhausted`, `Memory`, `StaleHandle`, with nothing written.
    /// - `BlobMissing` for a SYNC write through a stale handle that may be used: no durable byte is written.
    ///
    /// ```
    /// # use blobcrash::{Store, WriteOptions};
    /// let store = Store::builder().seed(7).open()?;
    /// let (blob, _) = store.open("p", b"b")?;
    /// blob.write_at(0, b"durable", WriteOptions::SYNC)?;
    /// blob.write_at(7, b", or not", WriteOptions::default())?;
    /// # Ok::<(), blobcrash::Error>(())
    /// ```
    pub fn write_at(&self, offset: u64, bytes: &[u8], options: WriteOptions) -> Result<(), Error> {
        let mut state = self.usable()?;
        state.permit(Kind::Write)?;
        let sync = options.contains(WriteOptions::SYNC);
        state.session.write(self.handle, offset, bytes, sync)?;
        if !sync && !bytes.is_empty() && state.limits.is_search() {
            state.limits.unsynced.write(self.opened.key);
        }
        Ok(())
    }

    /// Truncates the blob to a logical length, or extends it with zeros. The length is durable when it is synced. Errors: `Injected`,
    /// with a length between the two, or the earlier one; `OffsetOverflow`, `Memory` and `StaleHandle`, with the length unchanged.
    ///
    /// ```
    /// let store = blobcrash::Store::builder().open()?;
    /// let (blob, _) = store.open("p", b"b")?;
    /// blob.resize(2)?;
    /// assert_eq!(blob.read_at(0, 2)?, [0, 0]);
    /// # Ok::<(), blobcrash::Error>(())
    /// ```
    pub fn resize(&self, len: u64) -> Result<(), Error> {
        self.usable()?
            .by_number(Kind::Resize, self.handle, len)
            .map(drop)
    }

    /// Returns the size that the handle tracks, in bytes.
    ///
    /// ```
    /// let store = blobcrash::Store::builder().open()?;
    /// let (blob, _) = store.open("p", b"b")?;
    /// blob.resize(2)?;
    /// assert_eq!(blob.size()?, 2);
    /// # Ok::<(), blobcrash::Error>(())
    /// ```
    pub fn size(&self) -> Result<u64, Error> {
        let reply = self.usable()?.by_number(Kind::Size, self.handle, 0)?;
        Ok(reply.size)
    }

    /// Makes the handle's bytes durable. Errors, with no durable byte changed: `Injected`, `BlobMissing`, `Memory`, `StaleHandle`.
    ///
    /// ```
    /// # use blobcrash::{Store, WriteOptions};
    /// let store = Store::builder().seed(7).open()?;
    /// let (blob, _) = store.open("p", b"b")?;
    /// blob.write_at(0, b"abc", WriteOptions::default())?;
    /// blob.sync()?;
    /// store.restart()?;
    /// assert_eq!(store.open("p", b"b")?.1, 3);
    /// # Ok::<(), blobcrash::Error>(())
    /// ```
    pub fn sync(&self) -> Result<(), Error> {
        let mut state = self.usable()?;
        state.by_number(Kind::Sync, self.handle, 0)?;
        state.limits.unsynced.sync(self.opened.key);
        Ok(())
    }

    /// Starts to make the handle's bytes durable; `finish` returns the outcome. Errors: `Memory`, `StaleHandle`.
    ///
    /// ```
    /// let store = blobcrash::Store::builder().seed(7).open()?;
    /// let (blob, _) = store.open("p", b"b")?;
    /// blob.start_sync()?.finish()?;
    /// # Ok::<(), blobcrash::Error>(())
    /// ```
    pub fn start_sync(&self) -> Result<StartedSync, Error> {
        let mut state = self.usable()?;
        let reply = state.by_number(Kind::StartSync, self.handle, 0)?;
        state.limits.unsynced.sync(self.opened.key);
        Ok(StartedSync {
            shared: Arc::clone(&self.shared),
            number: reply.number,
            reopens: state.reopens,
            is_finished: false,
        })
    }

    /// Takes the store's lock, if the handle may be used.
    #[inline]
    fn usable(&self) -> Result<MutexGuard<'_, State>, Error> {
        let mut state = self.shared.lock();
        if let Err(stale) = self.opened.check() {
            state.limits.count_call()?;
            return Err(stale);
        }
        Ok(state)
    }
}

impl Drop for Blob {
    fn drop(&mut self) {
        self.shared.lock().close(self.handle, &self.opened);
    }
}

impl StartedSync {
    /// Returns the outcome of the sync: an error of `sync`, or `GenerationsExhausted`. A reopen forgets every sync that was started
    /// before it: `NoHandle`.
    ///
    /// ```
    /// # use blobcrash::{Error, Store};
    /// let store = Store::builder().seed(7).open()?;
    /// let (blob, _) = store.open("p", b"b")?;
    /// let started = blob.start_sync()?;
    /// store.reopen()?;
    /// assert_eq!(started.finish(), Err(Error::NoHandle));
    /// # Ok::<(), Error>(())
    /// ```
    pub fn finish(mut self) -> Result<(), Error> {
        let mut state = self.shared.lock();
        let outcome = state.by_number(Kind::Finish, self.number, 0).map(drop);
        drop(state);
        self.is_finished = outcome != Err(Error::OutOfMemory);
        outcome
    }
}

impl Drop for StartedSync {
    fn drop(&mut self) {
        let mut state = self.shared.lock();
        if !self.is_finished && self.reopens == state.reopens {
            let _ = state.by_number(Kind::Finish, self.number, 0);
        }
    }
}
