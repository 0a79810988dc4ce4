use crate::library::Session;
use crate::limits::Limits;
use crate::paths::Words;
use crate::script::{first_word, image_line, one_line, tokens, words_line};
use crate::shared::{Shared, State};
use crate::{Config, Error, Explorable, Store};
use std::sync::Arc;

/// The last word of a store with pushed words. It isn't zero, so that the library reports how many are left.
const LAST_WORD: u64 = 1;

/// What a store begins with.
///
/// ```
/// use blobcrash::{Config, Error, Probability, Store};
///
/// let sometimes = Config::default().sync(Probability::new(1, 8).unwrap());
/// assert!(matches!(Store::builder().config(sometimes).open(), Err(Error::NeedsSeed)));
/// assert!(Store::builder().config(sometimes).seed(7).open().is_ok());
/// ```
#[derive(Clone, Debug, Default)]
#[must_use]
pub struct Builder {
    pub(crate) lines: Vec<String>,
    pub(crate) config: Config,
    pub(crate) has_draws: bool,
    is_pushed: bool,
    allow_stale: bool,
    pub(crate) unrecorded: bool,
    /// The first argument that can't be expressed.
    pub(crate) problem: Option<Error>,
    /// The settings of all lines, once they are checked and have those of the configuration.
    pub(crate) settings: Config,
    /// These lines as a text.
    pub(crate) preamble: Arc<str>,
}

impl Builder {
    /// Adds a raw blob, with its header, that exists from the start. `open` refuses a partition that isn't one token of a line; other
    /// names aren't checked.
    ///
    /// ```
    /// let raw = b"CWIC\0\0\0\0the bytes after a header of layout V0";
    /// let store = blobcrash::Store::builder().image("p", b"b", raw).open()?;
    /// assert_eq!(store.open("p", b"b")?.0.read_at(0, 9)?, b"the bytes");
    /// # Ok::<(), blobcrash::Error>(())
    /// ```
    pub fn image(mut self, partition: &str, name: &[u8], raw: &[u8]) -> Builder {
        match image_line(partition, name, raw) {
            Ok(line) => self.lines.push(line),
            Err(error) => self.problem = self.problem.or(Some(error)),
        }
        self
    }

    /// Adds words to the generator, which decide what fails and what a crash keeps. After the last one it goes on with those of the
    /// seed, or with zeros if there is none.
    ///
    /// ```
    /// # use blobcrash::{Config, Error, Probability, Store};
    /// let half = Config::default().scan(Probability::new(1, 2).unwrap());
    /// let store = Store::builder().config(half).words(&[u64::MAX, 0]).open()?;
    /// assert!(matches!(store.scan("p"), Err(Error::PartitionMissing(_))));
    /// assert_eq!(store.scan("p"), Err(Error::Injected));
    /// # Ok::<(), Error>(())
    /// ```
    pub fn words(mut self, words: &[u64]) -> Builder {
        if !words.is_empty() {
            self.lines.push(words_line(words).trim_end().to_owned());
            self.has_draws = true;
        }
        self
    }

    /// Sets the seed of the words after the given ones. A second seed is a `BadLine`.
    ///
    /// ```
    /// let store = blobcrash::Store::builder().seed(7).open()?;
    /// assert_eq!(store.script(), "seed 7\n");
    /// # Ok::<(), blobcrash::Error>(())
    /// ```
    pub fn seed(mut self, seed: u64) -> Builder {
        self.lines.push(format!("seed {seed}"));
        self.has_draws = true;
        self
    }

    /// Lets the words be pushed, right before the calls that take them: [`Store::push_words`]. Without pushed words every draw is true.
    /// `open` returns `Argument` if there is a seed or a word as well.
    ///
    /// ```
    /// # use blobcrash::{Config, Error, Probability, Store};
    /// let half = Config::default().scan(Probability::new(1, 2).unwrap());
    /// let store = Store::builder().config(half).pushed().open()?;
    /// store.push_words(&[0])?;
    /// assert_eq!(store.scan("p"), Err(Error::Injected));
    /// # Ok::<(), Error>(())
    /// ```
    pub fn pushed(mut self) -> Builder {
        self.is_pushed = true;
        self
    }

    /// Adds lines of a script's preamble, as they are.
    ///
    /// ```
    /// let store = blobcrash::Store::builder().lines(&["seed 7", "image p 62 -"]).open()?;
    /// assert_eq!(store.scan("p")?, [b"b"]);
    /// # Ok::<(), blobcrash::Error>(())
    /// ```
    pub fn lines(mut self, lines: &[&str]) -> Builder {
        for line in lines {
            if let Err(error) = one_line(line) {
                self.problem = self.problem.or(Some(error));
            }
            self.has_draws |= ["seed", "words"].contains(&first_word(line));
            self.lines.push((*line).to_owned());
        }
        self
    }

    /// Sets which calls fail from the start.
    ///
    /// ```
    /// # use blobcrash::{Config, Error, Probability, Store};
    /// let store = Store::builder().config(Config::default().open(Probability::ONE)).open()?;
    /// assert_eq!(store.open("p", b"b").err(), Some(Error::Injected));
    /// # Ok::<(), Error>(())
    /// ```
    pub fn config(mut self, config: Config) -> Builder {
        self.config = config;
        self
    }

    /// Lets stale handles be used. Without this each use of one returns `StaleHandle`.
    ///
    /// ```
    /// let store = blobcrash::Store::builder().allow_stale().open()?;
    /// let (blob, _) = store.open("p", b"b")?;
    /// store.remove("p", None)?;
    /// assert!(blob.size().is_ok());
    /// # Ok::<(), blobcrash::Error>(())
    /// ```
    pub fn allow_stale(mut self) -> Builder {
        self.allow_stale = true;
        self
    }

    /// Keeps no record of the calls, which then need no memory, and [`Store::script`] is empty.
    ///
    /// ```
    /// let store = blobcrash::Store::builder().unrecorded().seed(7).open()?;
    /// assert_eq!(store.script(), "");
    /// # Ok::<(), blobcrash::Error>(())
    /// ```
    pub fn unrecorded(mut self) -> Builder {
        self.unrecorded = true;
        self
    }

    /// Makes the store.
    ///
    /// Errors, with nothing made:
    /// - `Argument` if the partition of an image isn't one token, a sector has no bytes, or a store with pushed words has other words.
    /// - `NeedsSeed` if a rate needs random draws and there is neither a seed nor a word.
    /// - `BadLine` if a line isn't one of a preamble, or a seed is given twice.
    /// - `OutOfMemory`.
    ///
    /// ```
    /// # use blobcrash::{Error, Store};
    /// let refused = Store::builder().lines(&["crash"]).open();
    /// assert_eq!(refused.err(), Some(Error::BadLine("crash".to_owned())));
    /// assert!(Store::builder().open().is_ok());
    /// ```
    pub fn open(mut self) -> Result<Store, Error> {
        self.complete()?;
        let words = self.is_pushed.then_some(LAST_WORD).into_iter().collect();
        self.made(Words::new(words), Limits::default())
    }

    /// Returns the builder of runs of a search, with their seed if they have one. Refuses words and a seed of the caller's.
    pub(crate) fn searched(&self, seed: Option<u64>) -> Result<Builder, Error> {
        if self.has_draws || self.is_pushed {
            return Err(Error::argument(
                "an explored run, or that of a seed, has neither a seed nor words of its builder's",
            ));
        }
        let mut builder = self.clone();
        builder.has_draws = true;
        let first = seed.map(|seed| format!("seed {seed}"));
        builder.lines.splice(0..0, first);
        Ok(builder)
    }

    /// Returns the settings of the lines and of the configuration together.
    pub(crate) fn effective(&self) -> Config {
        let mut config = Config::default();
        for line in self.lines.iter().chain(&self.config.lines()) {
            if let ["config", ref setting @ ..] = tokens(line)[..] {
                config.apply(setting);
            }
        }
        config
    }

    /// Adds the lines of the configuration, after checking what the caller gave.
    pub(crate) fn complete(&mut self) -> Result<(), Error> {
        if let Some(problem) = self.problem.take() {
            return Err(problem);
        }
        self.config.check()?;
        if self.is_pushed && self.has_draws {
            return Err(Error::argument(
                "a store with pushed words has neither a seed nor other words",
            ));
        }
        if !self.has_draws && !self.is_pushed && self.config.needs_draws() {
            return Err(Error::NeedsSeed);
        }
        self.settings = self.effective();
        self.lines.extend(self.config.lines());
        self.preamble = self
            .lines
            .iter()
            .fold(String::new(), |text, line| text + line + "\n")
            .into();
        Ok(())
    }
}

impl Explorable for Builder {
    type Opened = Store;

    fn prepared(&self, seed: Option<u64>) -> Result<Builder, Error> {
        let mut builder = self.searched(seed)?;
        builder.complete()?;
        Ok(builder)
    }

    fn made(&self, words: Words, limits: Limits) -> Result<Store, Error> {
        let has_draws = self.has_draws || self.is_pushed;
        let session = Session::begin(&self.preamble, words, self.unrecorded)?;
        let mut state = State::new(session, self.config, limits);
        state.limits.unsynced.set(&self.settings);
        (state.allow_stale, state.is_pushed) = (self.allow_stale, self.is_pushed);
        let shared = Shared::new(state, has_draws);
        Ok(Store { shared })
    }
}
