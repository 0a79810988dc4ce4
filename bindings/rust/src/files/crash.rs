//! Crashes, power losses, settings, and the record of the calls.
use super::Files;
use super::foreign::Kind;
use crate::limits::{Recorded, cut_after, is_power_off};
use crate::{Config, Error, Selections};

/// What a crash kept.
///
/// ```
/// let files = blobcrash::files::Files::builder().words(&[0, u64::MAX]).open()?;
/// files.create_dir("/a")?;
/// files.create_dir("/b")?;
/// assert_eq!(files.crash()?.edits, [true, false]);
/// assert!(files.exists("/a")? && !files.exists("/b")?);
/// # Ok::<(), blobcrash::Error>(())
/// ```
#[derive(Clone, Debug, Default, PartialEq, Eq)]
pub struct Crash {
    /// For each pending write of the layer with draws, its number and, byte by byte, whether it was kept. An unsettled edit is such a
    /// write too, of one sector of the journal.
    pub writes: Selections,
    /// For each change of names and each truncation that nothing had made durable, in order, whether it was kept.
    pub edits: Vec<bool>,
    /// For each of `writes`, where it was.
    pub places: Vec<Place>,
}

/// Where a pending write was.
///
/// ```
/// # use blobcrash::files::Place;
/// # use blobcrash::{Config, PartialWriteMode, Probability, WriteConfig};
/// let kept = WriteConfig {
///     failure_rate: Probability::ZERO,
///     retention_rate: Probability::ONE,
///     mode: PartialWriteMode::Prefix,
/// };
/// # let files = blobcrash::files::Files::builder().seed(7);
/// # let files = files.config(Config::default().write(kept)).open()?;
/// files.write("/f", b"abc")?;
/// let inode = Some(files.metadata("/f")?.ino());
/// let (edit, write) = (Place { inode: None, offset: 0 }, Place { inode, offset: 0 });
/// // The zeros by which the file grows are a write of their own.
/// assert_eq!(files.crash()?.places, [edit, write, write]);
/// # Ok::<(), blobcrash::Error>(())
/// ```
#[derive(Clone, Copy, Debug, PartialEq, Eq, Hash)]
pub struct Place {
    /// The number of the file's inode. `None` for an edit.
    pub inode: Option<u64>,
    /// The offset in bytes in the file, or of an edit in the journal.
    pub offset: u64,
}

impl Files {
    /// Makes the bytes of all files and all names durable, and draws nothing: the state before a test. The power doesn't fail at this
    /// call.
    ///
    /// ```
    /// # let files = blobcrash::files::Files::builder().seed(7).open()?;
    /// files.write("/f", b"abc")?;
    /// files.settle()?;
    /// assert!(files.crash()?.edits.is_empty());
    /// assert_eq!(files.read("/f")?, b"abc");
    /// # Ok::<(), blobcrash::Error>(())
    /// ```
    pub fn settle(&self) -> Result<(), Error> {
        self.lock().by_number(Kind::Settle, 0).map(drop)
    }

    /// Makes all names and truncations durable, and draws nothing, as a file system's own commit does. The bytes of files stay
    /// unsynced. The power doesn't fail at this call.
    ///
    /// ```
    /// # let files = blobcrash::files::Files::builder().seed(7).open()?;
    /// files.create_dir("/d")?;
    /// files.commit()?;
    /// assert!(files.crash()?.edits.is_empty());
    /// assert!(files.exists("/d")?);
    /// # Ok::<(), blobcrash::Error>(())
    /// ```
    pub fn commit(&self) -> Result<(), Error> {
        self.lock().by_number(Kind::Commit, 0).map(drop)
    }

    /// Loses what isn't durable, except what the draws keep, and recovers. Open files are stale, and the power is on.
    ///
    /// Errors: `Memory`. If the recovery ran out of it, all other calls return `Crashed` until a crash is `Ok`.
    ///
    /// ```
    /// # let files = blobcrash::files::Files::builder().seed(7).open()?;
    /// files.create_dir("/d")?;
    /// let kept = files.crash()?.edits;
    /// assert_eq!(kept, [files.exists("/d")?]);
    /// # Ok::<(), blobcrash::Error>(())
    /// ```
    pub fn crash(&self) -> Result<Crash, Error> {
        self.lock().crash()
    }

    /// Crashes, as [`Store::restart`](crate::Store::restart) does: a crash of files recovers them too.
    ///
    /// ```
    /// # let files = blobcrash::files::Files::builder().seed(7).open()?;
    /// assert_eq!(files.restart()?, Default::default());
    /// # Ok::<(), blobcrash::Error>(())
    /// ```
    pub fn restart(&self) -> Result<Crash, Error> {
        self.crash()
    }

    /// Turns the power off after `calls` more calls that may change what a crash leaves, whatever they return. These are all but opens of
    /// existing files without a truncation, closes, reads, look-ups, `settle` and `commit`.
    ///
    /// From then on every call returns `PowerLoss`, except `configure`, until the files have crashed. Returns `PowerLoss` if the power is
    /// off already.
    ///
    /// ```
    /// # use blobcrash::Error;
    /// # let files = blobcrash::files::Files::builder().seed(7).open()?;
    /// files.crash_after(1)?;
    /// files.create_dir("/a")?;
    /// assert_eq!(files.create_dir("/b"), Err(Error::PowerLoss));
    /// assert!(files.is_power_off());
    /// files.crash()?;
    /// assert!(!files.exists("/b")?);
    /// # Ok::<(), Error>(())
    /// ```
    pub fn crash_after(&self, calls: u64) -> Result<(), Error> {
        cut_after(&mut self.lock().session, calls)
    }

    /// Returns whether the power is off.
    ///
    /// ```
    /// # let files = blobcrash::files::Files::builder().seed(7).open()?;
    /// files.crash_after(0)?;
    /// assert!(files.sync().is_err() && files.is_power_off());
    /// # Ok::<(), blobcrash::Error>(())
    /// ```
    #[must_use]
    pub fn is_power_off(&self) -> bool {
        is_power_off(&mut self.lock().session)
    }

    /// Crashes, calls `step` and returns what that returns. Does both again if the power fails meanwhile. Returns the error of a crash.
    ///
    /// ```
    /// # let files = blobcrash::files::Files::builder().seed(7).open()?;
    /// files.crash_after(1)?;
    /// let mut steps = 0;
    /// files.recover(|files| {
    ///     steps += 1;
    ///     files.create("/a")?;
    ///     files.create("/b").map(drop)
    /// })?;
    /// assert_eq!(steps, 2);
    /// # Ok::<(), blobcrash::Error>(())
    /// ```
    pub fn recover<T, E: From<Error>>(
        &self,
        mut step: impl FnMut(&Files) -> Result<T, E>,
    ) -> Result<T, E> {
        loop {
            self.restart()?;
            let outcome = step(self);
            if !self.is_power_off() {
                return outcome;
            }
        }
    }

    /// Replaces the configuration: which calls fail, and what a crash keeps of writes that follow.
    ///
    /// Errors, with the earlier configuration in place:
    /// - `Argument` if a sector has no bytes.
    /// - `NeedsSeed` if a rate needs random draws and there is neither a seed nor a word.
    /// - `OutOfMemory`.
    ///
    /// ```
    /// # use blobcrash::{Config, Error, Probability};
    /// # let files = blobcrash::files::Files::builder().seed(7).open()?;
    /// let file = files.create("/f")?;
    /// files.configure(Config::default().sync(Probability::ONE))?;
    /// assert_eq!(file.sync_all(), Err(Error::Injected));
    /// # Ok::<(), Error>(())
    /// ```
    pub fn configure(&self, config: Config) -> Result<(), Error> {
        config.check()?;
        let mut state = self.lock();
        if !self.shared.has_draws && config.needs_draws() {
            return Err(Error::NeedsSeed);
        }
        state.configure(config)
    }

    /// Adds a comment to the record, a line for each of the text's.
    ///
    /// ```
    /// # let files = blobcrash::files::Files::builder().seed(7).open()?;
    /// files.note("the log is full");
    /// assert!(files.script().ends_with("# the log is full\n"));
    /// # Ok::<(), blobcrash::Error>(())
    /// ```
    pub fn note(&self, text: &str) {
        self.lock().session.note(text);
    }

    /// Returns the record: what the files began with, and a line for each call, as `blobcrash files` reads them. Comments say which
    /// descriptor a call opened, or why it was refused, and what a crash kept. Empty for files that are `unrecorded`.
    ///
    /// ```
    /// let files = blobcrash::files::Files::builder().seed(7).open()?;
    /// files.write("/f", b"abc")?;
    /// files.rename("/f", "/g")?;
    /// let begin = "seed 7\nprofile ext4\n";
    /// let calls = "create /f # is 0\nwrite 0 0 616263\nclose 0\nrename /f /g\n";
    /// assert_eq!(files.script(), begin.to_owned() + calls);
    /// # Ok::<(), blobcrash::Error>(())
    /// ```
    #[must_use]
    pub fn script(&self) -> String {
        self.lock().session.script()
    }

    /// Returns how many of the given words are left, up to the last one that isn't zero, or `None` if there is a seed.
    ///
    /// ```
    /// let files = blobcrash::files::Files::builder().words(&[0, 0, 1]).open()?;
    /// files.create_dir("/d")?;
    /// files.crash()?;
    /// assert_eq!(files.words_left(), Some(2));
    /// # Ok::<(), blobcrash::Error>(())
    /// ```
    #[must_use]
    pub fn words_left(&self) -> Option<usize> {
        self.lock().session.words_left()
    }
}
