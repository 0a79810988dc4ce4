use super::Files;
use crate::Error;
use crate::shared::Shared;

impl Files {
    /// Returns other files in the same state: names and bytes, what of them is unsynced and unsettled, settings, the power, and the words
    /// that the generator gives next. From here on no call of one changes the other, so that a run forks, as before a crash. No call is
    /// made again: a fork takes as long as copies of the names, of what isn't synced, of small files and of the script. Threads may use
    /// the two at the same time.
    ///
    /// A [`File`](super::File) stays with the files that opened it. Its descriptor is open in the other ones too, until they crash.
    ///
    /// Errors:
    /// - `Argument` if the files are those of an explored run.
    /// - `Crashed` if the recovery of the last crash failed, `OutOfMemory`.
    ///
    /// ```
    /// # use blobcrash::files::Files;
    /// let files = Files::builder().seed(7).open()?;
    /// files.create_dir("/d")?;
    /// let fork = files.fork()?;
    /// assert_eq!(files.crash()?, fork.crash()?);
    /// fork.write("/f", b"abc")?;
    /// assert!(!files.exists("/f")?);
    /// # Ok::<(), blobcrash::Error>(())
    /// ```
    pub fn fork(&self) -> Result<Files, Error> {
        let mut state = self.lock();
        if state.limits.choices.is_some() {
            return Err(Error::argument("files of an explored run can't be forked"));
        }
        let shared = Shared::new(state.fork()?, self.shared.has_draws);
        Ok(Files { shared })
    }
}
