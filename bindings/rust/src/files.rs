//! Files with names, directories, renames and their syncs, for tests of programs that keep their data in a file system.
//!
//! [`Files`] has the names of `std::fs`. A crash keeps only some of the bytes and of the changes of names that nothing made durable: which
//! ones it may keep is the [`Profile`]'s matter. `docs/FILES.md` has the rules.
//!
//! A body replaces a file by a rename, and forgets to sync the new one. Exploring it finds the crash that leaves an empty file:
//!
//! ```
//! use blobcrash::explore;
//! use blobcrash::files::{Files, Profile};
//! use std::io::{self, Write};
//!
//! fn replace(files: &Files, syncs: bool) -> io::Result<()> {
//!     let mut file = files.create("/new")?;
//!     file.write_all(b"new")?;
//!     if syncs {
//!         file.sync_all()?;
//!     }
//!     Ok(files.rename("/new", "/config")?)
//! }
//!
//! let builder = Files::builder().profile(Profile::Xfs);
//! let left = |syncs| explore(&builder, u64::MAX, |files| {
//!     files.write("/config", b"old")?;
//!     files.settle()?;
//!     replace(files, syncs)?;
//!     files.crash()?;
//!     Ok::<_, io::Error>(files.read("/config")?)
//! }).unwrap().outcomes;
//! assert!(left(false).contains_key(b"".as_slice()));
//! assert_eq!(left(true).into_keys().collect::<Vec<_>>(), [b"new".to_vec(), b"old".to_vec()]);
//! ```
mod builder;
mod calls;
mod crash;
mod entries;
mod file;
mod foreign;
mod fork;
mod library;
mod names;
mod options;
mod profiles;
mod record;
mod state;

pub use builder::{Builder, Edits, FailedSync, FailedWrite, Profile, Syncs};
pub use calls::Files;
pub use crash::{Crash, Place};
pub use entries::{DirEntry, FileType, Metadata};
pub use file::File;
pub use options::OpenOptions;
pub use profiles::{ProfilesFailed, each_profile};

use std::os::unix::ffi::OsStrExt;
use std::path::Path;

/// The bytes of a path.
fn bytes_of(path: &(impl AsRef<Path> + ?Sized)) -> &[u8] {
    path.as_ref().as_os_str().as_bytes()
}
