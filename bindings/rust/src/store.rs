use crate::foreign::Kind;
use crate::limits::Recorded;
use crate::script::one_line;
use crate::shared::{Opened, Shared, State};
use crate::{Blob, Builder, Config, Error};
use std::ops::RangeInclusive;
use std::sync::Arc;

/// What a crash chose: for each write with draws its number and, byte by byte, whether it was kept.
///
/// ```
/// let store = blobcrash::Store::builder().seed(7).open()?;
/// let selections: blobcrash::Selections = store.crash()?;
/// assert!(selections.is_empty());
/// # Ok::<(), blobcrash::Error>(())
/// ```
pub type Selections = Vec<(u64, Vec<bool>)>;

/// A store with its faults, its open handles and its started syncs. A clone is the same store. It ends with the last of its clones
/// and blobs.
///
/// Threads may share a store: each call takes its lock.
///
/// ```
/// use blobcrash::{Store, WriteOptions};
///
/// let store = Store::builder().seed(7).open()?;
/// let (blob, size) = store.open("partition", b"name")?;
/// assert_eq!(size, 0);
/// blob.write_at(0, b"durable", WriteOptions::SYNC)?;
/// blob.write_at(7, b"lost", WriteOptions::default())?;
/// store.restart()?;
/// let (_blob, size) = store.open("partition", b"name")?;
/// assert_eq!(size, 7);
/// assert_eq!(store.scan("partition")?, [b"name"]);
/// # Ok::<(), blobcrash::Error>(())
/// ```
#[derive(Clone, Debug)]
pub struct Store {
    pub(crate) shared: Arc<Shared<State>>,
}

impl Store {
    /// Returns what a store begins with: no blob, no fault, and a generator that needs a seed or words if a rate draws.
    ///
    /// ```
    /// let store = blobcrash::Store::builder().seed(7).open()?;
    /// assert_eq!(store.script(), "seed 7\n");
    /// # Ok::<(), blobcrash::Error>(())
    /// ```
    pub fn builder() -> Builder {
        Builder::default()
    }

    /// Opens a blob of version 0, or creates it, and returns its size in bytes. Pending writes of an earlier handle are dropped.
    ///
    /// Errors, with nothing opened:
    /// - `Injected` by the open rate, whatever the name is.
    /// - `PartitionNameInvalid` with the caller's text.
    /// - `BlobCorrupt`, `BlobVersionMismatch`, `GenerationsExhausted`, `Memory`.
    /// - `BlobAlreadyOpen` if the name is open.
    ///
    /// ```
    /// # use blobcrash::{Error, Store};
    /// let store = Store::builder().open()?;
    /// let (_blob, size) = store.open("p", b"b")?;
    /// assert_eq!(size, 0);
    /// assert!(matches!(store.open("p", b"b"), Err(Error::BlobAlreadyOpen(..))));
    /// # Ok::<(), Error>(())
    /// ```
    pub fn open(&self, partition: &str, name: &[u8]) -> Result<(Blob, u64), Error> {
        self.open_versioned(partition, name, 0..=0)
    }

    /// Opens a blob of one of these versions, or creates it with the greatest. Its handle has the version. Errors as `open`, and
    /// `EmptyRange` if there is no version.
    ///
    /// ```
    /// let store = blobcrash::Store::builder().open()?;
    /// assert_eq!(store.open_versioned("p", b"b", 2..=4)?.0.version(), 4);
    /// assert_eq!(store.open_versioned("p", b"b", 0..=9)?.0.version(), 4);
    /// # Ok::<(), blobcrash::Error>(())
    /// ```
    pub fn open_versioned(
        &self,
        partition: &str,
        name: &[u8],
        versions: RangeInclusive<u16>,
    ) -> Result<(Blob, u64), Error> {
        self.opened(Kind::Open, partition, name, versions)
    }

    /// Opens a blob although another handle may be open. A crash may still apply what is pending. Errors as `open_versioned`, but
    /// never `BlobAlreadyOpen`.
    ///
    /// ```
    /// let store = blobcrash::Store::builder().open()?;
    /// let (_blob, _) = store.open("p", b"b")?;
    /// assert!(store.open_loose("p", b"b", 0..=0).is_ok());
    /// # Ok::<(), blobcrash::Error>(())
    /// ```
    pub fn open_loose(
        &self,
        partition: &str,
        name: &[u8],
        versions: RangeInclusive<u16>,
    ) -> Result<(Blob, u64), Error> {
        self.opened(Kind::OpenLoose, partition, name, versions)
    }

    /// Drops what is pending of a blob, so that no crash applies it. A name that doesn't exist has nothing pending.
    ///
    /// ```
    /// let store = blobcrash::Store::builder().open()?;
    /// store.admit("p", b"b")?;
    /// # Ok::<(), blobcrash::Error>(())
    /// ```
    pub fn admit(&self, partition: &str, name: &[u8]) -> Result<(), Error> {
        let mut state = self.shared.lock();
        state
            .by_name(Kind::Admit, partition, name, [0, 0])
            .map(drop)
    }

    /// Removes a blob, or without a name the partition with all its blobs. Their handles are then stale.
    ///
    /// Errors, with nothing removed: `Injected`, `PartitionNameInvalid`, `PartitionMissing`, `BlobMissing`, `Memory`.
    ///
    /// ```
    /// # use blobcrash::{Error, Store};
    /// let store = Store::builder().open()?;
    /// drop(store.open("p", b"b")?);
    /// store.remove("p", Some(b"b"))?;
    /// store.remove("p", None)?;
    /// assert_eq!(store.remove("p", None), Err(Error::PartitionMissing("p".to_owned())));
    /// # Ok::<(), Error>(())
    /// ```
    pub fn remove(&self, partition: &str, name: Option<&[u8]>) -> Result<(), Error> {
        let kind = match name {
            Some(_) => Kind::RemoveBlob,
            None => Kind::RemovePartition,
        };
        let mut state = self.shared.lock();
        state.by_name(kind, partition, name.unwrap_or_default(), [0, 0])?;
        state.end_blobs(partition, name);
        Ok(())
    }

    /// Returns the names of a partition's blobs, sorted by their bytes. Errors: `Injected`, `PartitionNameInvalid`, `PartitionMissing`,
    /// `Memory`.
    ///
    /// ```
    /// let store = blobcrash::Store::builder().open()?;
    /// drop(store.open("p", b"b")?);
    /// drop(store.open("p", b"a")?);
    /// assert_eq!(store.scan("p")?, [b"a", b"b"]);
    /// # Ok::<(), blobcrash::Error>(())
    /// ```
    pub fn scan(&self, partition: &str) -> Result<Vec<Vec<u8>>, Error> {
        let mut state = self.shared.lock();
        let names = state.by_name(Kind::Scan, partition, b"", [0, 0])?.size;
        let names = 0..names as usize;
        names.map(|index| state.session.name(index)).collect()
    }

    /// Loses what isn't durable, except what the draws keep, and returns the draws. Every handle is then stale. Fails only with
    /// `Memory`, with nothing lost.
    ///
    /// ```
    /// # use blobcrash::{Config, PartialWriteMode, Probability, Store, WriteConfig, WriteOptions};
    /// let half = Config::default().write(WriteConfig {
    ///     failure_rate: Probability::ZERO,
    ///     retention_rate: Probability::new(1, 2).unwrap(),
    ///     mode: PartialWriteMode::Prefix,
    /// });
    /// let store = Store::builder().config(half).words(&[0, u64::MAX]).open()?;
    /// let (blob, _) = store.open("p", b"b")?;
    /// blob.write_at(0, b"abc", WriteOptions::default())?;
    /// assert_eq!(store.crash()?, [(0, vec![true, false, false])]);
    /// # Ok::<(), blobcrash::Error>(())
    /// ```
    pub fn crash(&self) -> Result<Selections, Error> {
        crash(&mut self.shared.lock())
    }

    /// Builds the store again from what is durable. Every handle is then stale, and no name is open.
    ///
    /// ```
    /// let store = blobcrash::Store::builder().open()?;
    /// let (_blob, _) = store.open("p", b"b")?;
    /// store.reopen()?;
    /// assert!(store.open("p", b"b").is_ok());
    /// # Ok::<(), blobcrash::Error>(())
    /// ```
    pub fn reopen(&self) -> Result<(), Error> {
        reopen(&mut self.shared.lock())
    }

    /// Crashes and reopens the store, and closes every handle, as the end of a process does. Returns the draws of the crash. Errors as
    /// `crash`.
    ///
    /// ```
    /// let store = blobcrash::Store::builder().open()?;
    /// let (blob, _) = store.open("p", b"b")?;
    /// store.restart()?;
    /// assert!(blob.is_stale());
    /// assert!(store.open("p", b"b").is_ok());
    /// # Ok::<(), blobcrash::Error>(())
    /// ```
    pub fn restart(&self) -> Result<Selections, Error> {
        let mut state = self.shared.lock();
        let selections = crash(&mut state)?;
        state.close_all()?;
        reopen(&mut state)?;
        Ok(selections)
    }

    /// Replaces the whole configuration.
    ///
    /// Errors, with the earlier configuration in place:
    /// - `Argument` if a sector has no bytes.
    /// - `NeedsSeed` if a rate needs random draws and the store has neither a seed nor a word.
    /// - `OutOfMemory`.
    ///
    /// ```
    /// # use blobcrash::{Config, Error, Probability, Store};
    /// let store = Store::builder().seed(7).open()?;
    /// store.configure(Config::default().scan(Probability::ONE))?;
    /// assert_eq!(store.scan("p"), Err(Error::Injected));
    /// store.configure(Config::default())?;
    /// assert!(matches!(store.scan("p"), Err(Error::PartitionMissing(_))));
    /// # Ok::<(), Error>(())
    /// ```
    pub fn configure(&self, config: Config) -> Result<(), Error> {
        config.check()?;
        let mut state = self.shared.lock();
        if !self.shared.has_draws && config.needs_draws() {
            return Err(Error::NeedsSeed);
        }
        state.configure(config)
    }

    /// Makes the call of any line of a script, and returns its reply line, of a refused call too. Handles that it opens are known by
    /// their numbers alone. Returns `BadLine` if the text isn't one line that is a call, a comment or empty; no call is then made.
    ///
    /// ```
    /// let store = blobcrash::Store::builder().open()?;
    /// assert_eq!(store.call("open p 62")?, "opened 0 0 0");
    /// assert_eq!(store.call("read 0 0 1")?, "error BlobInsufficientLength");
    /// assert!(store.call("frob").is_err());
    /// # Ok::<(), blobcrash::Error>(())
    /// ```
    pub fn call(&self, line: &str) -> Result<String, Error> {
        one_line(line)?;
        let mut state = self.shared.lock();
        let reply = state.call(line)?.to_owned();
        if !reply.starts_with("error ") {
            state.follow(line);
        }
        Ok(reply)
    }

    /// Adds a comment to the script, a line for each of the text's.
    ///
    /// ```
    /// let store = blobcrash::Store::builder().open()?;
    /// store.note("the log is full");
    /// assert_eq!(store.script(), "# the log is full\n");
    /// # Ok::<(), blobcrash::Error>(())
    /// ```
    pub fn note(&self, text: &str) {
        self.shared.lock().session.note(text);
    }

    /// Returns the lines of all calls, and notes: a script that makes the same calls again. Empty for a store that is `unrecorded`.
    ///
    /// ```
    /// let store = blobcrash::Store::builder().seed(7).open()?;
    /// store.note("a comment");
    /// store.crash()?;
    /// assert_eq!(store.script(), "seed 7\n# a comment\ncrash\n");
    /// assert_eq!(blobcrash::run_script(store.script().as_bytes())?, b"crashed\n");
    /// # Ok::<(), Box<dyn std::error::Error>>(())
    /// ```
    #[must_use]
    pub fn script(&self) -> String {
        self.shared.lock().session.script()
    }

    fn opened(
        &self,
        kind: Kind,
        partition: &str,
        name: &[u8],
        versions: RangeInclusive<u16>,
    ) -> Result<(Blob, u64), Error> {
        // A range that an iteration has used up is empty, though its ends don't say so.
        let (first, last) = if versions.is_empty() {
            (1, 0)
        } else {
            versions.into_inner()
        };
        let mut state = self.shared.lock();
        let reply = state.by_name(kind, partition, name, [first, last])?;
        let handle = reply.number;
        let opened = Arc::new(Opened::new(partition, name, state.allow_stale));
        if kind == Kind::Open {
            state.limits.unsynced.sync(opened.key);
        }
        state.insert(handle, &opened);
        let blob = Blob {
            shared: Arc::clone(&self.shared),
            opened,
            handle,
            version: u16::try_from(reply.version).expect("a version has 16 bits"),
        };
        Ok((blob, reply.size))
    }
}

fn crash(state: &mut State) -> Result<Selections, Error> {
    let rows = state.by_number(Kind::Crash, 0, 0)?.size;
    let selections = state.session.kept_writes(rows);
    state.has_crashed();
    Ok(selections)
}

fn reopen(state: &mut State) -> Result<(), Error> {
    state.by_number(Kind::Reopen, 0, 0)?;
    state.was_reopened();
    Ok(())
}
