//! The durable bytes of blobs.
use crate::header::{self, Layout};
use crate::limits::is_power_off;
use crate::storage::BlobVersion;
use crate::{Config, Error, Store};

impl Store {
    /// Returns the durable bytes of a blob with its header, or `None` if it doesn't exist. Makes no draw and changes nothing.
    ///
    /// Errors: `OutOfMemory`.
    ///
    /// ```
    /// # use blobcrash::{Store, WriteOptions};
    /// let store = Store::builder().image("p", b"b", b"CWIC\0\0\0\0abc").seed(7).open()?;
    /// let (blob, _) = store.open("p", b"b")?;
    /// blob.write_at(0, b"A", WriteOptions::SYNC)?;
    /// blob.write_at(1, b"B", WriteOptions::default())?;
    /// assert_eq!(store.raw_blob("p", b"b")?.unwrap(), b"CWIC\0\0\0\0Abc");
    /// # Ok::<(), blobcrash::Error>(())
    /// ```
    pub fn raw_blob(&self, partition: &str, name: &[u8]) -> Result<Option<Vec<u8>>, Error> {
        let mut state = self.shared.lock();
        state.session.durable_blob(partition, name, true)
    }

    /// Returns the durable bytes of a blob without its header, or `None` if it doesn't exist or has no valid header. Errors as
    /// `raw_blob`.
    ///
    /// ```
    /// # use blobcrash::{Store, WriteOptions};
    /// let store = Store::builder().seed(7).open()?;
    /// let (blob, _) = store.open("p", b"b")?;
    /// blob.write_at(0, b"abc", WriteOptions::default())?;
    /// assert_eq!(store.logical_blob("p", b"b")?.unwrap(), b"");
    /// blob.sync()?;
    /// assert_eq!(store.logical_blob("p", b"b")?.unwrap(), b"abc");
    /// # Ok::<(), blobcrash::Error>(())
    /// ```
    pub fn logical_blob(&self, partition: &str, name: &[u8]) -> Result<Option<Vec<u8>>, Error> {
        let mut state = self.shared.lock();
        state.session.durable_blob(partition, name, false)
    }

    /// Replaces a blob, or makes it, by durable bytes with their header, as another process would. No call fails by a rate, and nothing
    /// is drawn. Handles of the earlier blob are stale, and its name isn't open.
    ///
    /// The bytes are a whole header of layout V1 and what follows it. A blob with other bytes can exist from the start:
    /// [`Builder::image`](crate::Builder::image). In the script it is a removal, an open, a SYNC write and a close.
    ///
    /// Errors:
    /// - `Argument` if the header isn't a valid one of layout V1, and `PowerLoss` if the power is off, with nothing changed.
    /// - `PartitionNameInvalid`, with nothing changed.
    /// - `GenerationsExhausted`, `Memory`, `OutOfMemory`: the blob may be removed, or empty.
    ///
    /// ```
    /// # use blobcrash::{Store, header::{self, Layout}, storage::BlobVersion};
    /// let store = Store::builder().seed(7).open()?;
    /// let version = BlobVersion::new(0);
    /// let (mut raw, _) = header::create(&Layout::ALL, &(version..=version));
    /// raw.extend(b"abc");
    /// store.set_raw_blob("p", b"b", &raw)?;
    /// assert_eq!(store.raw_blob("p", b"b")?, Some(raw));
    /// assert_eq!(store.open("p", b"b")?.1, 3);
    /// # Ok::<(), blobcrash::Error>(())
    /// ```
    pub fn set_raw_blob(&self, partition: &str, name: &[u8], raw: &[u8]) -> Result<(), Error> {
        let any = BlobVersion::new(0)..=BlobVersion::new(u16::MAX);
        let first = Layout::V1..=Layout::V1;
        let is_whole = raw.len() as u64 >= Layout::V1.data_offset();
        let parsed = is_whole.then(|| header::parse(raw, raw.len() as u64, &first, &any));
        let Some(Ok((_, version, data_offset))) = parsed else {
            return Err(Error::argument(
                "a raw blob of a running store has a whole header of layout V1",
            ));
        };
        let mut state = self.shared.lock();
        if is_power_off(&mut state.session) {
            return Err(Error::PowerLoss);
        }
        let config = state.config();
        state.configure(Config::default())?;
        let outcome = state.replace_blob(partition, name, version, &raw[data_offset as usize..]);
        state.configure(config)?;
        outcome
    }

    /// Returns the digest of all durable blobs, as `docs/FORMATS.md` defines it. Makes no draw and changes nothing.
    ///
    /// ```
    /// let store = blobcrash::Store::builder().open()?;
    /// let empty = store.audit();
    /// store.open("p", b"b")?;
    /// assert_ne!(store.audit(), empty);
    /// # Ok::<(), blobcrash::Error>(())
    /// ```
    #[must_use]
    pub fn audit(&self) -> [u8; 4] {
        self.shared.lock().session.audit()
    }
}
