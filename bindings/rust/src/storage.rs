//! The traits of the ported crate, as direct calls: for code that is written for any storage.
//!
//! [`asynchronous`](crate::asynchronous) has the same traits with futures. Import the traits of one module: each storage has both.
//!
//! ```
//! use blobcrash::Store;
//! use blobcrash::storage::{Blob, Error, ReadOptions, Storage, WriteOptions};
//!
//! fn append<S: Storage>(storage: &S, record: &[u8]) -> Result<u64, Error> {
//!     let (blob, end) = storage.open("log", b"0")?;
//!     blob.write_at(end, record, WriteOptions::SYNC)?;
//!     let read = blob.read_at(end, record.len(), ReadOptions::default())?;
//!     assert_eq!(read.coalesce(), record);
//!     Ok(end)
//! }
//!
//! let store = Store::builder().seed(7).open().unwrap();
//! assert_eq!(append(&store, b"first"), Ok(0));
//! assert_eq!(append(&store, b"second"), Ok(5));
//! ```
use crate::store::Store;
use std::fmt;
use std::ops::RangeInclusive;

pub use crate::blob::WriteOptions;
pub use crate::buffers::{IoBuf, IoBufMut, IoBufs, IoBufsMut};
pub use crate::error::Error;
pub use crate::handle::Handle;

/// The version of a blob, which the application chooses.
///
/// ```
/// use blobcrash::storage::{BlobVersion, DEFAULT_BLOB_VERSION};
///
/// assert_eq!(BlobVersion::new(7).get(), 7);
/// assert_eq!(BlobVersion::new(0), DEFAULT_BLOB_VERSION);
/// ```
#[derive(Clone, Copy, Debug, Default, PartialEq, Eq, PartialOrd, Ord, Hash)]
pub struct BlobVersion(u16);

/// The version that [`Storage::open`] accepts and creates.
pub const DEFAULT_BLOB_VERSION: BlobVersion = BlobVersion::new(0);

impl BlobVersion {
    /// Returns the version with this number.
    #[must_use]
    pub const fn new(version: u16) -> BlobVersion {
        BlobVersion(version)
    }

    /// Returns the version's number.
    #[must_use]
    pub const fn get(self) -> u16 {
        self.0
    }
}

impl fmt::Display for BlobVersion {
    fn fmt(&self, f: &mut fmt::Formatter<'_>) -> fmt::Result {
        self.0.fmt(f)
    }
}

impl From<u16> for BlobVersion {
    fn from(version: u16) -> BlobVersion {
        BlobVersion(version)
    }
}

/// How bytes are read. There is one way.
///
/// ```
/// let options = blobcrash::storage::ReadOptions::default();
/// # let _ = options;
/// ```
#[derive(Clone, Copy, Debug, Default, PartialEq, Eq)]
#[non_exhaustive]
pub struct ReadOptions {}

/// A storage of blobs. A clone is the same storage.
///
/// ```
/// use blobcrash::storage::{Error, Storage};
///
/// fn names<S: Storage>(storage: &S) -> Result<usize, Error> {
///     storage.open("p", b"b")?;
///     Ok(storage.scan("p")?.len())
/// }
/// assert_eq!(names(&blobcrash::Store::builder().open().unwrap()), Ok(1));
/// ```
pub trait Storage: Clone + Send + Sync + 'static {
    /// An open handle.
    type Blob: Blob;

    /// Opens a blob of the default version, or creates it, and returns its size in bytes. Errors as `open_versioned`.
    fn open(&self, partition: &str, name: &[u8]) -> Result<(Self::Blob, u64), Error> {
        let versions = DEFAULT_BLOB_VERSION..=DEFAULT_BLOB_VERSION;
        let (blob, size, _) = self.open_versioned(partition, name, versions)?;
        Ok((blob, size))
    }

    /// Opens a blob of one of these versions, or creates it with the greatest. Returns its size in bytes and its version. Errors as
    /// [`Store::open_versioned`].
    fn open_versioned(
        &self,
        partition: &str,
        name: &[u8],
        versions: RangeInclusive<BlobVersion>,
    ) -> Result<(Self::Blob, u64, BlobVersion), Error>;

    /// Removes a blob, or without a name a partition. Errors as [`Store::remove`].
    fn remove(&self, partition: &str, name: Option<&[u8]>) -> Result<(), Error>;

    /// Returns the names of a partition's blobs, sorted by their bytes. Errors as [`Store::scan`].
    fn scan(&self, partition: &str) -> Result<Vec<Vec<u8>>, Error>;
}

/// An open handle of a blob, which is closed when it is dropped.
///
/// ```
/// use blobcrash::storage::{Blob, Error, ReadOptions, Storage, WriteOptions};
///
/// fn copy<B: Blob>(from: &B, to: &B, len: usize) -> Result<(), Error> {
///     let bytes = from.read_at(0, len, ReadOptions::default())?;
///     to.write_at(0, bytes.coalesce().freeze(), WriteOptions::default())?;
///     to.start_sync().wait()
/// }
/// let store = blobcrash::Store::builder().seed(7).open()?;
/// let (a, b) = (store.open("p", b"a")?.0, store.open("p", b"b")?.0);
/// a.resize(3)?;
/// copy(&a, &b, 3)?;
/// assert_eq!(b.size()?, 3);
/// # Ok::<(), Error>(())
/// ```
pub trait Blob: Send + Sync + 'static {
    /// Returns exactly `len` bytes at a logical offset. Errors as [`crate::Blob::read_at`].
    fn read_at(&self, offset: u64, len: usize, options: ReadOptions) -> Result<IoBufsMut, Error>;

    /// Reads exactly `len` bytes at a logical offset into a buffer, which is returned. Errors as `read_at`.
    ///
    /// # Panics
    /// If the buffer's capacity is less than `len`.
    fn read_at_buf(
        &self,
        offset: u64,
        len: usize,
        bufs: impl Into<IoBufsMut> + Send,
        options: ReadOptions,
    ) -> Result<IoBufsMut, Error>;

    /// Writes bytes at a logical offset. Errors as [`crate::Blob::write_at`].
    fn write_at(
        &self,
        offset: u64,
        bufs: impl Into<IoBufs> + Send,
        options: WriteOptions,
    ) -> Result<(), Error>;

    /// Truncates the blob to a logical length, or extends it with zeros. Errors as [`crate::Blob::resize`].
    fn resize(&self, len: u64) -> Result<(), Error>;

    /// Makes the handle's bytes durable. Errors as [`crate::Blob::sync`].
    fn sync(&self) -> Result<(), Error>;

    /// Starts to make the handle's bytes durable. The returned handle has the outcome.
    fn start_sync(&self) -> Handle<()>;
}

impl Storage for Store {
    type Blob = crate::Blob;

    fn open_versioned(
        &self,
        partition: &str,
        name: &[u8],
        versions: RangeInclusive<BlobVersion>,
    ) -> Result<(crate::Blob, u64, BlobVersion), Error> {
        // An empty range stays one.
        let numbers = if versions.is_empty() {
            RangeInclusive::new(1, 0)
        } else {
            versions.start().get()..=versions.end().get()
        };
        let (blob, size) = Store::open_versioned(self, partition, name, numbers)?;
        let version = BlobVersion(blob.version());
        Ok((blob, size, version))
    }

    fn remove(&self, partition: &str, name: Option<&[u8]>) -> Result<(), Error> {
        Store::remove(self, partition, name)
    }

    fn scan(&self, partition: &str) -> Result<Vec<Vec<u8>>, Error> {
        Store::scan(self, partition)
    }
}

impl Blob for crate::Blob {
    fn read_at(&self, offset: u64, len: usize, _: ReadOptions) -> Result<IoBufsMut, Error> {
        crate::Blob::read_at(self, offset, len).map(IoBufsMut::from)
    }

    fn read_at_buf(
        &self,
        offset: u64,
        len: usize,
        bufs: impl Into<IoBufsMut> + Send,
        _: ReadOptions,
    ) -> Result<IoBufsMut, Error> {
        let mut buffer = bufs.into().with_len(len);
        crate::Blob::read_at_buf(self, offset, &mut buffer)?;
        Ok(buffer.into())
    }

    fn write_at(
        &self,
        offset: u64,
        bufs: impl Into<IoBufs> + Send,
        options: WriteOptions,
    ) -> Result<(), Error> {
        crate::Blob::write_at(self, offset, &bufs.into().coalesce(), options)
    }

    fn resize(&self, len: u64) -> Result<(), Error> {
        crate::Blob::resize(self, len)
    }

    fn sync(&self) -> Result<(), Error> {
        crate::Blob::sync(self)
    }

    fn start_sync(&self) -> Handle<()> {
        match crate::Blob::start_sync(self) {
            Ok(started) => Handle::new(|| started.finish()),
            Err(error) => Handle::ready(Err(error)),
        }
    }
}
