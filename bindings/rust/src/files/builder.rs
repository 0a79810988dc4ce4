use super::Files;
use super::library::Session;
use super::state::State;
use crate::foreign::PROFILES;
use crate::library::word;
use crate::limits::Limits;
use crate::paths::Words;
use crate::shared::Shared;
use crate::unsynced::TORN_WRITES;
use crate::{Config, Error, Explorable, Probability};
use std::fmt;

/// Which file system's promises the files keep. `docs/FILES.md` has what each one settles and keeps.
///
/// ```
/// # use blobcrash::files::Profile;
/// assert_eq!(Profile::default(), Profile::Ext4);
/// assert_eq!(Profile::ALL.len(), 4);
/// ```
#[derive(Clone, Copy, Debug, Default, PartialEq, Eq, PartialOrd, Ord, Hash)]
pub enum Profile {
    /// ext4 with ordered data.
    #[default]
    Ext4,
    /// XFS.
    Xfs,
    /// btrfs.
    Btrfs,
    /// The least that POSIX promises.
    Posix,
}

impl fmt::Display for Profile {
    fn fmt(&self, f: &mut fmt::Formatter<'_>) -> fmt::Result {
        f.write_str(&word(PROFILES, *self as u32))
    }
}

impl Profile {
    /// All profiles, from the one that promises most.
    pub const ALL: [Profile; 4] = [Profile::Ext4, Profile::Xfs, Profile::Btrfs, Profile::Posix];
}

/// Which of the edits that nothing settled, changes of names and truncations, a crash may keep.
///
/// ```
/// # use blobcrash::{Probability, files::{Edits, Files}};
/// let files = Files::builder().edits(Edits::Any).words(&[u64::MAX, 0]).open()?;
/// files.create_dir("/lost")?;
/// files.create_dir("/kept")?;
/// assert_eq!(files.crash()?.edits, [false, true]);
/// # Ok::<(), blobcrash::Error>(())
/// ```
#[derive(Clone, Copy, Debug, PartialEq, Eq, Hash)]
pub enum Edits {
    /// Those up to some point.
    Prefix,
    /// Any.
    Any,
    /// As btrfs does: those up to some point, and of the later ones that the last sync left unsettled any that give a name, and some
    /// removals.
    Logged,
}

/// What a sync of a file that fails does to the bytes that it was to make durable.
#[derive(Clone, Copy, Debug, Default, PartialEq, Eq, Hash)]
pub enum FailedSync {
    /// They stay unsynced. A later sync may make them durable.
    #[default]
    Keeps,
    /// They are dropped: reads return them until the file is opened again, no later sync writes them, and no crash keeps any.
    Drops,
}

/// Whether a sync that returns `Ok` has made anything durable.
#[derive(Clone, Copy, Debug, Default, PartialEq, Eq, Hash)]
pub enum Syncs {
    /// It has.
    #[default]
    Honest,
    /// It hasn't, and never fails.
    Lie,
}

/// Which bytes of a write that fails are written.
#[derive(Clone, Copy, Debug, Default, PartialEq, Eq, Hash)]
pub enum FailedWrite {
    /// Those that the mode of writes selects.
    #[default]
    ByMode,
    /// A prefix, drawn byte by byte.
    Prefix,
}

/// What files begin with.
///
/// ```
/// use blobcrash::Error;
/// use blobcrash::files::{Files, Profile};
///
/// let builder = Files::builder().profile(Profile::Btrfs);
/// assert!(matches!(builder.clone().open(), Err(Error::NeedsSeed)));
/// assert!(builder.seed(7).open().is_ok());
/// ```
#[derive(Clone, Debug, Default)]
#[must_use]
pub struct Builder {
    /// The words, the seed, the faults, and whether there is a record.
    base: crate::Builder,
    profile: Profile,
    /// Those of the profile if it isn't set.
    edits: Option<Edits>,
    /// How often a crash keeps an edit; 1/2 if it isn't set.
    keep: Option<Probability>,
    space: Option<[u64; 2]>,
    failed_sync: FailedSync,
    syncs: Syncs,
    failed_write: FailedWrite,
}

impl Builder {
    /// Sets the profile.
    ///
    /// ```
    /// # use blobcrash::files::{Files, Profile};
    /// let files = Files::builder().profile(Profile::Posix).seed(7).open()?;
    /// # Ok::<(), blobcrash::Error>(())
    /// ```
    pub fn profile(mut self, profile: Profile) -> Builder {
        self.profile = profile;
        self
    }

    /// Sets which calls fail from the start, and what a crash keeps of unsynced writes: nothing, if this isn't set. The files of
    /// [`explore`](crate::explore()) and [`seeds`](crate::seeds()) begin with half of the sectors of 512 bytes instead, as a mount does.
    ///
    /// The rate of opens is that of making a file. Those of removals and scans aren't used.
    ///
    /// ```
    /// # use blobcrash::{Config, Error, Probability, files::Files};
    /// let never = Config::default().open(Probability::ONE);
    /// let files = Files::builder().config(never).seed(7).open()?;
    /// assert_eq!(files.create("/f").err(), Some(Error::Injected));
    /// # Ok::<(), Error>(())
    /// ```
    pub fn config(mut self, config: Config) -> Builder {
        self.base = self.base.config(config);
        self
    }

    /// Sets how often a crash keeps a change of names or a truncation that nothing made durable: 1/2 if it isn't set.
    ///
    /// ```
    /// # use blobcrash::{Probability, files::Files};
    /// let files = Files::builder().keep(Probability::ZERO).seed(7).open()?;
    /// files.create_dir("/d")?;
    /// files.crash()?;
    /// assert!(!files.exists("/d")?);
    /// # Ok::<(), blobcrash::Error>(())
    /// ```
    pub fn keep(mut self, rate: Probability) -> Builder {
        self.keep = Some(rate);
        self
    }

    /// Sets how many bytes all files together may have, and how many files there may be. A call that needs more returns `NoSpace`.
    ///
    /// ```
    /// # use blobcrash::{Error, files::Files};
    /// let files = Files::builder().space(4, 1).seed(7).open()?;
    /// assert_eq!(files.write("/f", b"abcde"), Err(Error::NoSpace));
    /// assert_eq!(files.create("/g").err(), Some(Error::NoSpace));
    /// # Ok::<(), Error>(())
    /// ```
    pub fn space(mut self, bytes: u64, files: u64) -> Builder {
        self.space = Some([bytes, files]);
        self
    }

    /// Sets what a sync that fails does to the bytes that it was to make durable.
    ///
    /// ```
    /// # use blobcrash::{Config, Error, Probability, files::{FailedSync, Files}};
    /// # use std::io::Write;
    /// let files = Files::builder().failed_sync(FailedSync::Drops).seed(7).open()?;
    /// files.configure(Config::default().sync(Probability::ONE))?;
    /// let mut file = files.create("/f")?;
    /// file.write_all(b"abc")?;
    /// assert_eq!(file.sync_all(), Err(Error::Injected));
    /// assert_eq!(file.metadata()?.len(), 3);
    /// assert_eq!(files.read("/f")?, b"");
    /// # Ok::<(), std::io::Error>(())
    /// ```
    pub fn failed_sync(mut self, does: FailedSync) -> Builder {
        self.failed_sync = does;
        self
    }

    /// Sets whether syncs lie.
    ///
    /// ```
    /// # use blobcrash::{Probability, files::{Files, Syncs}};
    /// let files = Files::builder().syncs(Syncs::Lie).keep(Probability::ZERO).open()?;
    /// files.create_dir("/d")?;
    /// files.sync()?;
    /// files.crash()?;
    /// assert!(!files.exists("/d")?);
    /// # Ok::<(), blobcrash::Error>(())
    /// ```
    pub fn syncs(mut self, syncs: Syncs) -> Builder {
        self.syncs = syncs;
        self
    }

    /// Sets which bytes of a write that fails are written.
    ///
    /// ```
    /// # use blobcrash::files::{FailedWrite, Files};
    /// let files = Files::builder().failed_write(FailedWrite::Prefix).seed(7).open()?;
    /// # Ok::<(), blobcrash::Error>(())
    /// ```
    pub fn failed_write(mut self, writes: FailedWrite) -> Builder {
        self.failed_write = writes;
        self
    }

    /// Sets which unsettled edits a crash may keep, in place of what the profile says.
    ///
    /// ```
    /// # use blobcrash::files::{Edits, Files, Profile};
    /// let files = Files::builder().profile(Profile::Btrfs).edits(Edits::Any).seed(7).open()?;
    /// assert!(files.script().contains("profile btrfs\nedits any\n"));
    /// # Ok::<(), blobcrash::Error>(())
    /// ```
    pub fn edits(mut self, edits: Edits) -> Builder {
        self.edits = Some(edits);
        self
    }

    /// Returns the lines of the switches that aren't set as at first.
    fn switches(&self) -> impl Iterator<Item = String> + use<> {
        let lines = [
            (self.failed_sync == FailedSync::Drops).then_some("failed_sync drops"),
            (self.syncs == Syncs::Lie).then_some("syncs lie"),
            (self.failed_write == FailedWrite::Prefix).then_some("failed_write prefix"),
        ];
        lines.into_iter().flatten().map(str::to_owned)
    }

    /// Adds words to the generator, which decide what fails and what a crash keeps. After the last one it goes on with those of the
    /// seed, or with zeros if there is none.
    ///
    /// ```
    /// # use blobcrash::files::Files;
    /// let files = Files::builder().words(&[u64::MAX]).open()?;
    /// files.create_dir("/d")?;
    /// assert_eq!(files.crash()?.edits, [false]);
    /// # Ok::<(), blobcrash::Error>(())
    /// ```
    pub fn words(mut self, words: &[u64]) -> Builder {
        self.base = self.base.words(words);
        self
    }

    /// Sets the seed of the words after the given ones. A second seed is a `BadLine`.
    ///
    /// ```
    /// # use blobcrash::files::Files;
    /// assert!(Files::builder().seed(7).open()?.script().starts_with("seed 7\n"));
    /// # Ok::<(), blobcrash::Error>(())
    /// ```
    pub fn seed(mut self, seed: u64) -> Builder {
        self.base = self.base.seed(seed);
        self
    }

    /// Adds lines of words, of a seed or of settings, as they are. Settings that have methods here follow them.
    ///
    /// ```
    /// # use blobcrash::{Error, files::Files};
    /// let files = Files::builder().lines(&["seed 7", "config read 1 1"]).open();
    /// assert!(files.is_ok());
    /// let refused = Files::builder().lines(&["frob"]).seed(7).open();
    /// assert_eq!(refused.err(), Some(Error::BadLine("frob".to_owned())));
    /// # Ok::<(), Error>(())
    /// ```
    pub fn lines(mut self, lines: &[&str]) -> Builder {
        self.base = self.base.lines(lines);
        self
    }

    /// Keeps no record of the calls, which then need less memory, and [`Files::script`] is empty.
    ///
    /// ```
    /// # use blobcrash::files::Files;
    /// assert_eq!(Files::builder().unrecorded().seed(7).open()?.script(), "");
    /// # Ok::<(), blobcrash::Error>(())
    /// ```
    pub fn unrecorded(mut self) -> Builder {
        self.base = self.base.unrecorded();
        self
    }

    /// Makes an empty file system.
    ///
    /// Errors, with nothing made:
    /// - `Argument` if a sector has no bytes.
    /// - `NeedsSeed` if a rate needs random draws, as that of [`Builder::keep`] does, and there is neither a seed nor a word.
    /// - `BadLine` if a line isn't one of a preamble, or a seed is given twice.
    /// - `OutOfMemory`.
    ///
    /// ```
    /// # use blobcrash::{Error, files::Files};
    /// assert!(matches!(Files::builder().open(), Err(Error::NeedsSeed)));
    /// assert!(Files::builder().seed(7).open().is_ok());
    /// ```
    pub fn open(mut self) -> Result<Files, Error> {
        self.complete()?;
        self.made(Words::default(), Limits::default())
    }

    /// The base of a search's files: unsynced writes are torn, unless a setting is one of writes.
    fn torn_base(&self) -> crate::Builder {
        let mut base = self.base.clone();
        if base.effective().write_rate.is_none() {
            base.config.write_rate = Some(TORN_WRITES);
        }
        base
    }

    /// Adds the lines of the settings, after checking what the caller gave.
    fn complete(&mut self) -> Result<(), Error> {
        if self.keep.is_none_or(Probability::needs_draws) && !self.base.has_draws {
            return Err(self.base.problem.take().unwrap_or(Error::NeedsSeed));
        }
        let keep = self.keep.map(|rate| format!("keep {}", rate.words()));
        let space = self
            .space
            .map(|[bytes, files]| format!("space {bytes} {files}"));
        self.base.lines.push(format!("profile {}", self.profile));
        let switches = self.switches();
        self.base.lines.extend(self.edits.map(|edits| match edits {
            Edits::Prefix => "edits prefix".to_owned(),
            Edits::Any => "edits any".to_owned(),
            Edits::Logged => "edits logged".to_owned(),
        }));
        self.base
            .lines
            .extend(keep.into_iter().chain(space).chain(switches));
        self.base.complete()
    }
}

impl Explorable for Builder {
    type Opened = Files;

    fn prepared(&self, seed: Option<u64>) -> Result<Builder, Error> {
        let mut builder = self.clone();
        builder.base = self.torn_base().searched(seed)?;
        builder.complete()?;
        Ok(builder)
    }

    fn made(&self, words: Words, limits: Limits) -> Result<Files, Error> {
        let session = Session::begin(&self.base.preamble, words, self.base.unrecorded)?;
        let mut state = State::new(session, self.base.config, limits);
        state.syncs_lie = self.syncs == Syncs::Lie;
        state.limits.unsynced.set(&self.base.settings);
        let shared = Shared::new(state, self.base.has_draws);
        Ok(Files { shared })
    }
}
