//! Exclusive opens over any storage.
use crate::buffers::{IoBufs, IoBufsMut};
use crate::storage::{Blob, BlobVersion, Handle, ReadOptions, WriteOptions};
use crate::{Error, Store};
use std::sync::{Mutex, MutexGuard, PoisonError};

/// A registry of names, each of which has at most one open handle. It is apart from the storage that the handles are of, as the one in
/// a wrapper of a storage. The registry is the library's: it keeps the names in a store of its own.
///
/// ```
/// use blobcrash::storage::Storage;
/// use blobcrash::{Error, Opens, Store};
///
/// let storage = Store::builder().open().unwrap();
/// let opens = Opens::new().unwrap();
/// let open = || opens.open("p", b"b", || {
///     let versions = blobcrash::storage::DEFAULT_BLOB_VERSION..=blobcrash::storage::DEFAULT_BLOB_VERSION;
///     Storage::open_versioned(&storage.clone(), "p", b"b", versions)
/// });
/// let (blob, _, _) = open().unwrap();
/// assert!(matches!(open(), Err(Error::BlobAlreadyOpen(..))));
/// drop(blob);
/// assert!(open().is_ok());
/// ```
#[derive(Debug)]
pub struct Opens {
    names: Store,
    /// Orders the opens and the replacements.
    namespace: Mutex<()>,
}

/// The only open handle of a name, until it is dropped or its name is replaced.
///
/// It passes each call on to the storage's own handle.
#[derive(Debug)]
pub struct Opened<B> {
    inner: B,
    _name: crate::Blob,
}

impl Opens {
    /// Makes a registry in which no name is open. Errors: `OutOfMemory`.
    ///
    /// ```
    /// assert!(blobcrash::Opens::new().is_ok());
    /// ```
    pub fn new() -> Result<Opens, Error> {
        Ok(Opens {
            names: Store::builder().unrecorded().allow_stale().open()?,
            namespace: Mutex::new(()),
        })
    }

    /// Calls `open` once and returns its handle, size and version. The name is then open, until the handle is dropped or the name is
    /// replaced.
    ///
    /// Errors, after which the same names are open:
    /// - The error of `open`.
    /// - `BlobAlreadyOpen` if the name is open. The handle that `open` returned is dropped.
    /// - `PartitionNameInvalid` if `open` accepts a partition that isn't a valid name.
    /// - `GenerationsExhausted`, `Memory`, `OutOfMemory`.
    ///
    /// ```
    /// # use blobcrash::storage::BlobVersion;
    /// # use blobcrash::{Error, Opens};
    /// let opens = Opens::new().unwrap();
    /// let failed = opens.open::<()>("p", b"b", || Err(Error::Closed));
    /// assert_eq!(failed.err(), Some(Error::Closed));
    /// let (blob, size, _) = opens.open("p", b"b", || Ok(((), 5, BlobVersion::new(0)))).unwrap();
    /// assert_eq!((blob.inner(), size), (&(), 5));
    /// ```
    pub fn open<B>(
        &self,
        partition: &str,
        name: &[u8],
        open: impl FnOnce() -> Result<(B, u64, BlobVersion), Error>,
    ) -> Result<(Opened<B>, u64, BlobVersion), Error> {
        let _namespace = self.lock();
        let registered = self.names.open(partition, name);
        let (inner, size, version) = open()?;
        let (name, _) = registered?;
        Ok((Opened { inner, _name: name }, size, version))
    }

    /// Calls `call` once and returns what it returned. After an `Ok` the name, or without one the whole partition, isn't open any more;
    /// after an `Err` the same names are open.
    ///
    /// ```
    /// # use blobcrash::storage::BlobVersion;
    /// # use blobcrash::{Error, Opens};
    /// let opens = Opens::new().unwrap();
    /// let open = || opens.open("p", b"b", || Ok(((), 0, BlobVersion::new(0))));
    /// let old = open().unwrap();
    /// assert_eq!(opens.replace("p", None, || Ok(7)), Ok(7));
    /// let current = open().unwrap();
    /// drop(old);
    /// assert!(matches!(open(), Err(Error::BlobAlreadyOpen(..))));
    /// # drop(current);
    /// ```
    pub fn replace<T>(
        &self,
        partition: &str,
        name: Option<&[u8]>,
        call: impl FnOnce() -> Result<T, Error>,
    ) -> Result<T, Error> {
        let _namespace = self.lock();
        let replaced = call()?;
        // Without faults a removal is refused only if the name doesn't exist, and then it isn't open.
        let _ = self.names.remove(partition, name);
        Ok(replaced)
    }

    fn lock(&self) -> MutexGuard<'_, ()> {
        let namespace = self.namespace.lock();
        namespace.unwrap_or_else(PoisonError::into_inner)
    }
}

impl<B> Opened<B> {
    /// Returns the storage's own handle.
    ///
    /// ```
    /// # use blobcrash::{Opens, storage::BlobVersion};
    /// let opens = Opens::new().unwrap();
    /// let (blob, _, _) = opens.open("p", b"b", || Ok((3, 0, BlobVersion::new(0)))).unwrap();
    /// assert_eq!(*blob.inner(), 3);
    /// ```
    pub fn inner(&self) -> &B {
        &self.inner
    }
}

impl<B: Blob> Blob for Opened<B> {
    fn read_at(&self, offset: u64, len: usize, options: ReadOptions) -> Result<IoBufsMut, Error> {
        self.inner.read_at(offset, len, options)
    }

    fn read_at_buf(
        &self,
        offset: u64,
        len: usize,
        bufs: impl Into<IoBufsMut> + Send,
        options: ReadOptions,
    ) -> Result<IoBufsMut, Error> {
        self.inner.read_at_buf(offset, len, bufs, options)
    }

    fn write_at(
        &self,
        offset: u64,
        bufs: impl Into<IoBufs> + Send,
        options: WriteOptions,
    ) -> Result<(), Error> {
        self.inner.write_at(offset, bufs, options)
    }

    fn resize(&self, len: u64) -> Result<(), Error> {
        self.inner.resize(len)
    }

    fn sync(&self) -> Result<(), Error> {
        self.inner.sync()
    }

    fn start_sync(&self) -> Handle<()> {
        self.inner.start_sync()
    }
}
