use super::foreign::Kind;
use super::{File, Files, bytes_of};
use crate::Error;
use std::path::Path;
use std::sync::atomic::AtomicU64;

/// How a file is opened: the options of `std::fs::OpenOptions`.
///
/// ```
/// use std::io::{Read, Write};
///
/// # let files = blobcrash::files::Files::builder().seed(7).open()?;
/// let mut log = files.options().read(true).append(true).create(true).open("/log")?;
/// log.write_all(b"record")?;
/// let mut again = files.options().read(true).append(true).open("/log")?;
/// again.write_all(b", another")?;
/// let mut text = String::new();
/// log.read_to_string(&mut text)?;
/// assert_eq!(text, ", another");
/// # Ok::<(), std::io::Error>(())
/// ```
#[derive(Clone, Debug)]
#[must_use = "`open` opens the file"]
pub struct OpenOptions {
    files: Files,
    read: bool,
    write: bool,
    append: bool,
    truncate: bool,
    create: bool,
    create_new: bool,
}

impl OpenOptions {
    pub(crate) fn of(files: &Files) -> OpenOptions {
        OpenOptions {
            files: files.clone(),
            read: false,
            write: false,
            append: false,
            truncate: false,
            create: false,
            create_new: false,
        }
    }

    /// Sets whether the file may be read.
    pub fn read(&mut self, read: bool) -> &mut OpenOptions {
        self.read = read;
        self
    }

    /// Sets whether the file may be written.
    pub fn write(&mut self, write: bool) -> &mut OpenOptions {
        self.write = write;
        self
    }

    /// Sets whether each write is at the end of the file.
    pub fn append(&mut self, append: bool) -> &mut OpenOptions {
        self.append = append;
        self
    }

    /// Sets whether an existing file is truncated.
    pub fn truncate(&mut self, truncate: bool) -> &mut OpenOptions {
        self.truncate = truncate;
        self
    }

    /// Sets whether a file is made if none exists.
    pub fn create(&mut self, create: bool) -> &mut OpenOptions {
        self.create = create;
        self
    }

    /// Sets whether a file is made, and the name must be free.
    pub fn create_new(&mut self, create_new: bool) -> &mut OpenOptions {
        self.create_new = create_new;
        self
    }

    /// Opens a file. Errors as [`Files::open`], [`Files::create`] or [`Files::create_new`], and `Argument` for options that don't fit: no
    /// way to use the file, a truncation or a new file without writing, or a truncation before appending.
    ///
    /// ```
    /// # use blobcrash::Error;
    /// # let files = blobcrash::files::Files::builder().seed(7).open()?;
    /// assert!(matches!(files.options().create(true).open("/f"), Err(Error::Argument(_))));
    /// files.options().write(true).create_new(true).open("/f")?;
    /// # Ok::<(), Error>(())
    /// ```
    pub fn open(&self, path: impl AsRef<Path>) -> Result<File, Error> {
        self.check()?;
        let path = bytes_of(&path);
        let mut state = self.files.lock();
        let creates = self.create_new || self.create && state.is_missing(path);
        let kind = match (creates, self.truncate) {
            (true, _) => Kind::Create,
            (false, true) => Kind::OpenTruncated,
            (false, false) => Kind::Open,
        };
        Ok(File {
            files: self.files.clone(),
            descriptor: state.by_path(kind, path)?.number,
            life: state.life,
            position: AtomicU64::new(0),
            reads: self.read,
            writes: self.write || self.append,
            appends: self.append,
        })
    }

    fn check(&self) -> Result<(), Error> {
        let writes = self.write || self.append;
        let changes = self.truncate || self.create || self.create_new;
        let text = if !self.read && !writes {
            "a file is opened for reading, writing or appending"
        } else if changes && !writes {
            "a file that is truncated or made is opened for writing"
        } else if self.truncate && self.append && !self.create_new {
            "a file that is opened for appending isn't truncated"
        } else {
            return Ok(());
        };
        Err(Error::argument(text))
    }
}
