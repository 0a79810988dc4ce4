//! The traits of [`storage`] with futures, as the ported crate has them: code that is generic over that crate's traits
//! needs another import and no other change.
//!
//! Each future makes its call when it is first polled, and is then ready: nothing waits, and any executor will do. Every storage
//! with the direct traits has these.
//!
//! ```
//! use blobcrash::asynchronous::{Blob, Error, Storage, WriteOptions};
//! use std::future::Future;
//! use std::pin::pin;
//! use std::task::{Context, Poll, Waker};
//!
//! async fn append<S: Storage>(storage: &S, record: &'static [u8]) -> Result<u64, Error> {
//!     let (blob, end) = storage.open("log", b"0").await?;
//!     blob.write_at(end, record, WriteOptions::default()).await?;
//!     blob.start_sync().await.await?;
//!     Ok(end)
//! }
//!
//! let store = blobcrash::Store::builder().seed(7).open().unwrap();
//! let mut context = Context::from_waker(Waker::noop());
//! assert_eq!(pin!(append(&store, b"first")).poll(&mut context), Poll::Ready(Ok(0)));
//! assert_eq!(pin!(append(&store, b"second")).poll(&mut context), Poll::Ready(Ok(5)));
//! ```
use crate::storage;
use std::future::Future;
use std::ops::RangeInclusive;

pub use crate::storage::{
    BlobVersion, DEFAULT_BLOB_VERSION, Error, Handle, IoBuf, IoBufMut, IoBufs, IoBufsMut,
    ReadOptions, WriteOptions,
};

/// A storage of blobs. A clone is the same storage.
///
/// ```
/// use blobcrash::asynchronous::{Error, Storage};
///
/// async fn names<S: Storage>(storage: &S) -> Result<usize, Error> {
///     storage.open("p", b"b").await?;
///     Ok(storage.scan("p").await?.len())
/// }
/// # let _ = names::<blobcrash::Store>;
/// ```
pub trait Storage: Clone + Send + Sync + 'static {
    /// An open handle.
    type Blob: Blob;

    /// Opens a blob of the default version, or creates it, and returns its size in bytes. Errors as `open_versioned`.
    fn open(
        &self,
        partition: &str,
        name: &[u8],
    ) -> impl Future<Output = Result<(Self::Blob, u64), Error>> + Send {
        async move {
            let versions = DEFAULT_BLOB_VERSION..=DEFAULT_BLOB_VERSION;
            let (blob, size, _) = self.open_versioned(partition, name, versions).await?;
            Ok((blob, size))
        }
    }

    /// Opens a blob of one of these versions, or creates it with the greatest. Returns its size in bytes and its version. Errors as
    /// [`Store::open_versioned`](crate::Store::open_versioned).
    fn open_versioned(
        &self,
        partition: &str,
        name: &[u8],
        versions: RangeInclusive<BlobVersion>,
    ) -> impl Future<Output = Result<(Self::Blob, u64, BlobVersion), Error>> + Send;

    /// Removes a blob, or without a name a partition. Errors as [`Store::remove`](crate::Store::remove).
    fn remove(
        &self,
        partition: &str,
        name: Option<&[u8]>,
    ) -> impl Future<Output = Result<(), Error>> + Send;

    /// Returns the names of a partition's blobs, sorted by their bytes. Errors as [`Store::scan`](crate::Store::scan).
    fn scan(&self, partition: &str) -> impl Future<Output = Result<Vec<Vec<u8>>, Error>> + Send;
}

/// An open handle of a blob, which is closed when it is dropped.
///
/// ```
/// use blobcrash::asynchronous::{Blob, Error, ReadOptions, WriteOptions};
///
/// async fn copy<B: Blob>(from: &B, to: &B, len: usize) -> Result<(), Error> {
///     let bytes = from.read_at(0, len, ReadOptions::default()).await?;
///     to.write_at(0, bytes.coalesce().freeze(), WriteOptions::default()).await?;
///     to.sync().await
/// }
/// # let _ = copy::<blobcrash::Blob>;
/// ```
pub trait Blob: Send + Sync + 'static {
    /// Returns exactly `len` bytes at a logical offset. Errors as [`crate::Blob::read_at`].
    fn read_at(
        &self,
        offset: u64,
        len: usize,
        options: ReadOptions,
    ) -> impl Future<Output = Result<IoBufsMut, Error>> + Send;

    /// Reads exactly `len` bytes at a logical offset into a buffer, which is returned. Errors as `read_at`.
    ///
    /// # Panics
    /// If the buffer's capacity is less than `len`.
    fn read_at_buf(
        &self,
        offset: u64,
        len: usize,
        bufs: impl Into<IoBufsMut> + Send,
        options: ReadOptions,
    ) -> impl Future<Output = Result<IoBufsMut, Error>> + Send;

    /// Writes bytes at a logical offset. Errors as [`crate::Blob::write_at`].
    fn write_at(
        &self,
        offset: u64,
        bufs: impl Into<IoBufs> + Send,
        options: WriteOptions,
    ) -> impl Future<Output = Result<(), Error>> + Send;

    /// Truncates the blob to a logical length, or extends it with zeros. Errors as [`crate::Blob::resize`].
    fn resize(&self, len: u64) -> impl Future<Output = Result<(), Error>> + Send;

    /// Makes the handle's bytes durable. Errors as [`crate::Blob::sync`].
    fn sync(&self) -> impl Future<Output = Result<(), Error>> + Send;

    /// Starts to make the handle's bytes durable. The returned handle is a future of the outcome.
    fn start_sync(&self) -> impl Future<Output = Handle<()>> + Send;
}

impl<S: storage::Storage> Storage for S {
    type Blob = S::Blob;

    async fn open_versioned(
        &self,
        partition: &str,
        name: &[u8],
        versions: RangeInclusive<BlobVersion>,
    ) -> Result<(S::Blob, u64, BlobVersion), Error> {
        storage::Storage::open_versioned(self, partition, name, versions)
    }

    async fn remove(&self, partition: &str, name: Option<&[u8]>) -> Result<(), Error> {
        storage::Storage::remove(self, partition, name)
    }

    async fn scan(&self, partition: &str) -> Result<Vec<Vec<u8>>, Error> {
        storage::Storage::scan(self, partition)
    }
}

impl<B: storage::Blob> Blob for B {
    async fn read_at(
        &self,
        offset: u64,
        len: usize,
        options: ReadOptions,
    ) -> Result<IoBufsMut, Error> {
        storage::Blob::read_at(self, offset, len, options)
    }

    async fn read_at_buf(
        &self,
        offset: u64,
        len: usize,
        bufs: impl Into<IoBufsMut> + Send,
        options: ReadOptions,
    ) -> Result<IoBufsMut, Error> {
        storage::Blob::read_at_buf(self, offset, len, bufs, options)
    }

    async fn write_at(
        &self,
        offset: u64,
        bufs: impl Into<IoBufs> + Send,
        options: WriteOptions,
    ) -> Result<(), Error> {
        storage::Blob::write_at(self, offset, bufs, options)
    }

    async fn resize(&self, len: u64) -> Result<(), Error> {
        storage::Blob::resize(self, len)
    }

    async fn sync(&self) -> Result<(), Error> {
        storage::Blob::sync(self)
    }

    async fn start_sync(&self) -> Handle<()> {
        storage::Blob::start_sync(self)
    }
}
