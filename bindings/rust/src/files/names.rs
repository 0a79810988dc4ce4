//! The calls that change names.
use super::calls::is_root;
use super::foreign::Kind;
use super::record::Call;
use super::state::State;
use super::{Files, bytes_of};
use crate::Error;
use std::path::Path;

impl Files {
    fn by_paths(
        &self,
        (kind, first): (Kind, u64),
        from: impl AsRef<Path>,
        to: impl AsRef<Path>,
    ) -> Result<(), Error> {
        let call = Call::of_paths(kind, first, bytes_of(&from), bytes_of(&to));
        self.lock().call(&call).map(drop)
    }

    /// Moves a file or a directory, in one step. A file replaces an existing file, and a directory an empty directory.
    ///
    /// Errors, with no name changed: `NotFound`; `NotDirectory`, `IsDirectory` and `NotEmpty` of what would be replaced; `Loop` if a
    /// directory would be moved below itself.
    ///
    /// ```
    /// # use blobcrash::Error;
    /// # let files = blobcrash::files::Files::builder().seed(7).open()?;
    /// files.write("/new", b"new")?;
    /// files.write("/f", b"old")?;
    /// files.rename("/new", "/f")?;
    /// assert_eq!(files.read("/f")?, b"new");
    /// assert_eq!(files.rename("/new", "/f"), Err(Error::NotFound));
    /// # Ok::<(), Error>(())
    /// ```
    pub fn rename(&self, from: impl AsRef<Path>, to: impl AsRef<Path>) -> Result<(), Error> {
        self.by_paths((Kind::Rename, 0), from, to)
    }

    /// Moves a file or a directory to a free name, as `renameat2` with `RENAME_NOREPLACE`. Errors as `rename`, and `Exists` if the name
    /// is taken.
    ///
    /// ```
    /// # use blobcrash::Error;
    /// # let files = blobcrash::files::Files::builder().seed(7).open()?;
    /// files.write("/a", b"a")?;
    /// files.write("/b", b"b")?;
    /// assert_eq!(files.rename_no_replace("/a", "/b"), Err(Error::Exists));
    /// files.rename_no_replace("/a", "/c")?;
    /// # Ok::<(), Error>(())
    /// ```
    pub fn rename_no_replace(
        &self,
        from: impl AsRef<Path>,
        to: impl AsRef<Path>,
    ) -> Result<(), Error> {
        self.by_paths((Kind::Rename, 1), from, to)
    }

    /// Lets two files or directories change their names, in one step, as `renameat2` with `RENAME_EXCHANGE`. Errors as `rename`.
    ///
    /// ```
    /// # let files = blobcrash::files::Files::builder().seed(7).open()?;
    /// files.write("/a", b"a")?;
    /// files.write("/b", b"b")?;
    /// files.exchange("/a", "/b")?;
    /// assert_eq!(files.read("/a")?, b"b");
    /// # Ok::<(), blobcrash::Error>(())
    /// ```
    pub fn exchange(&self, from: impl AsRef<Path>, to: impl AsRef<Path>) -> Result<(), Error> {
        self.by_paths((Kind::Rename, 2), from, to)
    }

    /// Gives a file a second name. Errors: `NotFound`, `IsDirectory`, `Exists`, `TooManyLinks`.
    ///
    /// ```
    /// # let files = blobcrash::files::Files::builder().seed(7).open()?;
    /// files.write("/f", b"abc")?;
    /// files.hard_link("/f", "/g")?;
    /// files.remove_file("/f")?;
    /// assert_eq!(files.read("/g")?, b"abc");
    /// # Ok::<(), blobcrash::Error>(())
    /// ```
    pub fn hard_link(
        &self,
        original: impl AsRef<Path>,
        link: impl AsRef<Path>,
    ) -> Result<(), Error> {
        self.by_paths((Kind::Link, 0), original, link)
    }

    /// Removes a name of a file. Open files keep their bytes. Errors: `NotFound`, `IsDirectory`.
    ///
    /// ```
    /// # use blobcrash::Error;
    /// # let files = blobcrash::files::Files::builder().seed(7).open()?;
    /// files.write("/f", b"abc")?;
    /// files.remove_file("/f")?;
    /// assert_eq!(files.remove_file("/f"), Err(Error::NotFound));
    /// # Ok::<(), Error>(())
    /// ```
    pub fn remove_file(&self, path: impl AsRef<Path>) -> Result<(), Error> {
        self.by_path(Kind::Unlink, path)
    }

    /// Makes an empty directory. Errors: `Exists`.
    ///
    /// ```
    /// # use blobcrash::Error;
    /// # let files = blobcrash::files::Files::builder().seed(7).open()?;
    /// files.create_dir("/d")?;
    /// assert_eq!(files.create_dir("/d"), Err(Error::Exists));
    /// # Ok::<(), Error>(())
    /// ```
    pub fn create_dir(&self, path: impl AsRef<Path>) -> Result<(), Error> {
        self.by_path(Kind::MakeDirectory, path)
    }

    /// Makes a directory, and each one above it that doesn't exist. Errors: `Exists` if the last name is that of a file. Directories that
    /// were made before an error stay.
    ///
    /// ```
    /// # let files = blobcrash::files::Files::builder().seed(7).open()?;
    /// files.create_dir_all("/a/b/c")?;
    /// files.create_dir_all("/a/b/c")?;
    /// assert!(files.metadata("/a/b")?.is_dir());
    /// # Ok::<(), blobcrash::Error>(())
    /// ```
    pub fn create_dir_all(&self, path: impl AsRef<Path>) -> Result<(), Error> {
        let path = bytes_of(&path);
        let mut state = self.lock();
        state.permit(Kind::Find)?;
        state.session.check_power()?;
        let ends = (1..=path.len()).filter(|end| path.get(*end).is_none_or(|byte| *byte == b'/'));
        for above in ends.map(|end| &path[..end]).filter(|above| !is_root(above)) {
            let is_wanted = above.len() == path.len() && !state.is_directory(above);
            if is_wanted || state.is_missing(above) {
                state.by_path(Kind::MakeDirectory, above)?;
            }
        }
        Ok(())
    }

    /// Removes an empty directory. Errors: `NotFound`, `NotDirectory`, `NotEmpty`.
    ///
    /// ```
    /// # use blobcrash::Error;
    /// # let files = blobcrash::files::Files::builder().seed(7).open()?;
    /// files.create_dir_all("/a/b")?;
    /// assert_eq!(files.remove_dir("/a"), Err(Error::NotEmpty));
    /// files.remove_dir("/a/b")?;
    /// # Ok::<(), Error>(())
    /// ```
    pub fn remove_dir(&self, path: impl AsRef<Path>) -> Result<(), Error> {
        self.by_path(Kind::RemoveDirectory, path)
    }
}

impl State {
    /// Returns whether a path is that of a directory.
    fn is_directory(&mut self, path: &[u8]) -> bool {
        let found = self.session.apply(&Call::of_path(Kind::Find, path));
        found.is_ok_and(|found| found.kind == 1)
    }
}
