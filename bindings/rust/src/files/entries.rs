//! What is known of a file or a directory.
use super::library::Name;
use std::ffi::OsString;
use std::os::unix::ffi::OsStringExt;
use std::path::{Path, PathBuf};

/// Whether something is a file or a directory.
///
/// ```
/// # let files = blobcrash::files::Files::builder().seed(7).open()?;
/// files.create_dir("/d")?;
/// assert!(files.read_dir("/")?[0].file_type().is_dir());
/// # Ok::<(), blobcrash::Error>(())
/// ```
#[derive(Clone, Copy, Debug, PartialEq, Eq, Hash)]
pub struct FileType {
    is_directory: bool,
}

impl FileType {
    pub(crate) fn of(is_directory: bool) -> FileType {
        FileType { is_directory }
    }

    /// Returns whether this is a directory.
    #[must_use]
    pub fn is_dir(&self) -> bool {
        self.is_directory
    }

    /// Returns whether this is a file.
    #[must_use]
    pub fn is_file(&self) -> bool {
        !self.is_directory
    }
}

/// The number, the kind and the size of a file or a directory.
///
/// ```
/// # let files = blobcrash::files::Files::builder().seed(7).open()?;
/// let file = files.create("/f")?;
/// file.set_len(3)?;
/// let metadata = file.metadata()?;
/// assert!(metadata.is_file() && metadata.len() == 3);
/// assert_eq!(files.metadata("/f")?, metadata);
/// # Ok::<(), blobcrash::Error>(())
/// ```
#[derive(Clone, Debug, PartialEq, Eq)]
#[must_use]
pub struct Metadata {
    inode: u64,
    file_type: FileType,
    len: u64,
}

impl Metadata {
    pub(crate) fn new(inode: u64, file_type: FileType, len: u64) -> Metadata {
        Metadata {
            inode,
            file_type,
            len,
        }
    }

    /// Returns the number of the inode. The root has the number 1.
    #[must_use]
    pub fn ino(&self) -> u64 {
        self.inode
    }

    /// Returns whether this is a file or a directory.
    #[must_use]
    pub fn file_type(&self) -> FileType {
        self.file_type
    }

    /// Returns whether this is a directory.
    #[must_use]
    pub fn is_dir(&self) -> bool {
        self.file_type.is_dir()
    }

    /// Returns whether this is a file.
    #[must_use]
    pub fn is_file(&self) -> bool {
        self.file_type.is_file()
    }

    /// Returns the size of a file in bytes, and 0 for a directory.
    #[allow(clippy::len_without_is_empty)]
    #[must_use]
    pub fn len(&self) -> u64 {
        self.len
    }
}

/// A name in a directory.
///
/// ```
/// # let files = blobcrash::files::Files::builder().seed(7).open()?;
/// files.create_dir("/d")?;
/// files.create("/d/f")?;
/// let entry = &files.read_dir("/d")?[0];
/// assert_eq!((entry.file_name(), entry.path()), ("f".into(), "/d/f".into()));
/// assert_eq!(entry.ino(), files.metadata("/d/f")?.ino());
/// # Ok::<(), blobcrash::Error>(())
/// ```
#[derive(Clone, Debug, PartialEq, Eq)]
pub struct DirEntry {
    directory: PathBuf,
    name: OsString,
    inode: u64,
    file_type: FileType,
}

impl DirEntry {
    pub(crate) fn new(directory: &Path, (name, inode, is_directory): Name) -> DirEntry {
        DirEntry {
            directory: directory.to_owned(),
            name: OsString::from_vec(name),
            inode,
            file_type: FileType::of(is_directory),
        }
    }

    /// Returns the name.
    #[must_use]
    pub fn file_name(&self) -> OsString {
        self.name.clone()
    }

    /// Returns the path of the directory, as it was given, with the name.
    #[must_use]
    pub fn path(&self) -> PathBuf {
        self.directory.join(&self.name)
    }

    /// Returns whether the name is that of a file or of a directory.
    #[must_use]
    pub fn file_type(&self) -> FileType {
        self.file_type
    }

    /// Returns the number of the inode.
    #[must_use]
    pub fn ino(&self) -> u64 {
        self.inode
    }
}
