//! The calls of a file system.
use super::foreign::Kind;
use super::state::State;
use super::{Builder, DirEntry, File, FileType, Metadata, OpenOptions, bytes_of};
use crate::Error;
use crate::limits::{Limited, Limits, Recorded};
use crate::shared::Shared;
use std::path::Path;
use std::sync::{Arc, MutexGuard};

/// A file system with its faults. A clone is the same one. It ends with the last of its clones and open files.
///
/// A path is names separated by slashes, from the root on. A name is 1 to 255 bytes, none of which is a slash or a zero. `.` and `..`
/// aren't names.
/// Threads may share files: each call takes their lock.
///
/// Errors that each call may return, with nothing changed:
/// - `PowerLoss` while the power is off (see [`Files::crash_after`]).
/// - `NotFound`, `NotDirectory`, `InvalidName` and `NameTooLong` for a name of a path.
/// - `Memory`, `OutOfMemory`, and `Crashed` if the recovery of the last crash failed.
///
/// ```
/// use blobcrash::files::Files;
///
/// let files = Files::builder().seed(7).open()?;
/// files.create_dir("/d")?;
/// files.write("/d/f", b"durable")?;
/// files.settle()?;
/// files.remove_file("/d/f")?;
/// files.sync_directory("/d")?;
/// files.crash()?;
/// assert!(files.read_dir("/d")?.is_empty());
/// # Ok::<(), blobcrash::Error>(())
/// ```
#[derive(Clone, Debug)]
pub struct Files {
    pub(crate) shared: Arc<Shared<State>>,
}

impl Files {
    /// Returns what a file system begins with: no file, no call that fails, and a generator that needs a seed or words. A crash keeps
    /// nothing of an unsynced write before [`Builder::config`] says what.
    ///
    /// ```
    /// let files = blobcrash::files::Files::builder().seed(7).open()?;
    /// assert!(files.read_dir("/")?.is_empty());
    /// # Ok::<(), blobcrash::Error>(())
    /// ```
    pub fn builder() -> Builder {
        Builder::default()
    }

    pub(crate) fn lock(&self) -> MutexGuard<'_, State> {
        self.shared.lock()
    }

    pub(crate) fn by_path(&self, kind: Kind, path: impl AsRef<Path>) -> Result<(), Error> {
        self.lock().by_path(kind, bytes_of(&path)).map(drop)
    }

    /// Returns options for opening a file, none of which is set.
    ///
    /// ```
    /// # let files = blobcrash::files::Files::builder().seed(7).open()?;
    /// let log = files.options().append(true).create(true).open("/log")?;
    /// # Ok::<(), blobcrash::Error>(())
    /// ```
    pub fn options(&self) -> OpenOptions {
        OpenOptions::of(self)
    }

    /// Opens a file for reading. Errors: `NotFound`, `IsDirectory`.
    ///
    /// ```
    /// # use blobcrash::Error;
    /// # let files = blobcrash::files::Files::builder().seed(7).open()?;
    /// assert_eq!(files.open("/f").err(), Some(Error::NotFound));
    /// files.write("/f", b"abc")?;
    /// assert_eq!(files.open("/f")?.metadata()?.len(), 3);
    /// # Ok::<(), Error>(())
    /// ```
    pub fn open(&self, path: impl AsRef<Path>) -> Result<File, Error> {
        self.options().read(true).open(path)
    }

    /// Opens a file for writing: makes it, or truncates an existing one. The truncation isn't durable until the file is synced.
    /// Errors: `IsDirectory`; `Injected` of the layer's open or resize; `NoSpace` if a limit of files is reached.
    ///
    /// ```
    /// # use std::io::Write;
    /// # let files = blobcrash::files::Files::builder().seed(7).open()?;
    /// files.create("/f")?.write_all(b"abc")?;
    /// files.create("/f")?.write_all(b"d")?;
    /// assert_eq!(files.read("/f")?, b"d");
    /// # Ok::<(), std::io::Error>(())
    /// ```
    pub fn create(&self, path: impl AsRef<Path>) -> Result<File, Error> {
        let mut options = self.options();
        options.write(true).create(true).truncate(true).open(path)
    }

    /// Makes a file and opens it for reading and writing. Errors as `create`, and `Exists` if the name is taken.
    ///
    /// ```
    /// # use blobcrash::Error;
    /// # let files = blobcrash::files::Files::builder().seed(7).open()?;
    /// files.create_new("/f")?;
    /// assert_eq!(files.create_new("/f").err(), Some(Error::Exists));
    /// # Ok::<(), Error>(())
    /// ```
    pub fn create_new(&self, path: impl AsRef<Path>) -> Result<File, Error> {
        let mut options = self.options();
        options.read(true).write(true).create_new(true).open(path)
    }

    /// Returns the bytes of a file. Errors as `open` and as a read.
    ///
    /// ```
    /// # let files = blobcrash::files::Files::builder().seed(7).open()?;
    /// files.write("/f", b"abc")?;
    /// assert_eq!(files.read("/f")?, b"abc");
    /// # Ok::<(), blobcrash::Error>(())
    /// ```
    pub fn read(&self, path: impl AsRef<Path>) -> Result<Vec<u8>, Error> {
        let mut bytes = Vec::new();
        self.open(path)?.read_all(Some(0), &mut bytes)?;
        Ok(bytes)
    }

    /// Writes a whole file, as by `create` and a write. Errors as of these: some of the bytes may be written.
    ///
    /// ```
    /// # let files = blobcrash::files::Files::builder().seed(7).open()?;
    /// files.write("/f", "abc")?;
    /// files.write("/f", b"d")?;
    /// assert_eq!(files.read("/f")?, b"d");
    /// # Ok::<(), blobcrash::Error>(())
    /// ```
    pub fn write(&self, path: impl AsRef<Path>, contents: impl AsRef<[u8]>) -> Result<(), Error> {
        self.create(path)?
            .write_from(Some(0), contents.as_ref())
            .map(drop)
    }

    /// Returns what is in a directory, sorted by the bytes of the names.
    ///
    /// ```
    /// # let files = blobcrash::files::Files::builder().seed(7).open()?;
    /// files.create_dir("/d")?;
    /// files.write("/d/b", b"")?;
    /// files.write("/d/a", b"")?;
    /// let entries = files.read_dir("/d")?;
    /// let names: Vec<_> = entries.iter().map(|entry| entry.path()).collect();
    /// assert_eq!(names, ["/d/a", "/d/b"].map(std::path::PathBuf::from));
    /// # Ok::<(), blobcrash::Error>(())
    /// ```
    pub fn read_dir(&self, path: impl AsRef<Path>) -> Result<Vec<DirEntry>, Error> {
        let names = self.lock().list(bytes_of(&path))?;
        let entries = names
            .into_iter()
            .map(|name| DirEntry::new(path.as_ref(), name));
        Ok(entries.collect())
    }

    /// Returns whether a file or a directory has this path.
    ///
    /// ```
    /// # let files = blobcrash::files::Files::builder().seed(7).open()?;
    /// assert!(files.exists("/")? && !files.exists("/f")?);
    /// # Ok::<(), blobcrash::Error>(())
    /// ```
    pub fn exists(&self, path: impl AsRef<Path>) -> Result<bool, Error> {
        match self.metadata(path) {
            Ok(_) => Ok(true),
            Err(Error::NotFound) => Ok(false),
            Err(error) => Err(error),
        }
    }

    /// Returns the number, the kind and the size of a file or a directory.
    ///
    /// ```
    /// # let files = blobcrash::files::Files::builder().seed(7).open()?;
    /// files.write("/f", b"abc")?;
    /// assert_eq!(files.metadata("/f")?.len(), 3);
    /// assert!(files.metadata("/")?.is_dir());
    /// # Ok::<(), blobcrash::Error>(())
    /// ```
    pub fn metadata(&self, path: impl AsRef<Path>) -> Result<Metadata, Error> {
        self.lock().metadata(bytes_of(&path))
    }

    /// Makes the changes of a directory's names durable, and those that the profile adds: as `fsync` of a directory. Makes no draw.
    ///
    /// ```
    /// # let files = blobcrash::files::Files::builder().seed(7).open()?;
    /// files.create_dir("/d")?;
    /// files.sync_directory("/")?;
    /// files.crash()?;
    /// assert!(files.exists("/d")?);
    /// # Ok::<(), blobcrash::Error>(())
    /// ```
    pub fn sync_directory(&self, path: impl AsRef<Path>) -> Result<(), Error> {
        self.by_path(Kind::SyncDirectory, path)
    }

    /// Makes the bytes of all files and all names durable: as `sync`. Errors: `Injected` of the layer's syncs, after some of them.
    ///
    /// ```
    /// # let files = blobcrash::files::Files::builder().seed(7).open()?;
    /// files.write("/f", b"abc")?;
    /// files.sync()?;
    /// files.crash()?;
    /// assert_eq!(files.read("/f")?, b"abc");
    /// # Ok::<(), blobcrash::Error>(())
    /// ```
    pub fn sync(&self) -> Result<(), Error> {
        self.lock().by_number(Kind::SyncAll, 0).map(drop)
    }
}

/// Returns whether a path is the root's, which has no name.
pub(crate) fn is_root(path: &[u8]) -> bool {
    !path.is_empty() && path.iter().all(|byte| *byte == b'/')
}

impl State {
    fn metadata(&mut self, path: &[u8]) -> Result<Metadata, Error> {
        if is_root(path) {
            self.by_path(Kind::List, path)?;
            return Ok(Metadata::new(1, FileType::of(true), 0));
        }
        let found = self.by_path(Kind::Find, path)?;
        let file_type = FileType::of(found.kind == 1);
        Ok(Metadata::new(found.number, file_type, found.size))
    }
}

impl Limited for Files {
    fn with_limits<T>(&self, act: impl FnOnce(&mut Limits, &mut dyn Recorded) -> T) -> T {
        let mut state = self.lock();
        let State {
            limits, session, ..
        } = &mut *state;
        act(limits, session)
    }

    fn record(&self) -> String {
        self.script()
    }
}
