//! One run of an exploration, or of a seed.
use crate::choices::Choices;
use crate::expecting::States;
use crate::limits::{Limited, Limits};
use crate::path_text::words_text;
use crate::paths::{Path, Words};
use crate::unsynced::Met;
use crate::{Error, Store};
use std::ops::Deref;

/// What an exploration opens for each run. It is implemented by the builders of this crate alone: [`Builder`](crate::Builder) for
/// a [`Store`], and [`files::Builder`](crate::files::Builder) for [`files::Files`](crate::files::Files).
///
/// ```
/// use blobcrash::files::Files;
/// use blobcrash::{Error, Explorable, Store, explore};
///
/// fn runs(builder: &impl Explorable) -> u64 {
///     explore(builder, 10, |run| Ok::<_, Error>(run.choose(3))).unwrap().runs
/// }
/// assert_eq!(runs(&Store::builder()) + runs(&Files::builder()), 6);
/// ```
pub trait Explorable: Clone {
    /// What a run has.
    type Opened: Limited;

    /// Returns the builder of the runs of a search, with all of their lines but the words of each.
    #[doc(hidden)]
    fn prepared(&self, seed: Option<u64>) -> Result<Self, Error>;

    /// Makes what a run has, with words before those of the lines, of which none is missing.
    #[doc(hidden)]
    fn made(&self, words: Words, limits: Limits) -> Result<Self::Opened, Error>;
}

/// The store, or the files, of one run. It has the methods of [`Store`] or of [`files::Files`](crate::files::Files).
///
/// ```
/// # use blobcrash::{Error, Run, Store, explore};
/// fn body(run: &Run) -> Result<u64, Error> {
///     let (blob, _) = run.open("p", b"b")?;
///     blob.resize(run.choose(2) as u64)?;
///     blob.size()
/// }
/// assert_eq!(explore(&Store::builder(), 10, body).unwrap().runs, 2);
/// ```
#[derive(Debug)]
pub struct Run<S: Limited = Store> {
    opened: S,
    number: u64,
}

impl<S: Limited> Deref for Run<S> {
    type Target = S;

    fn deref(&self) -> &S {
        &self.opened
    }
}

impl<S: Limited> Run<S> {
    pub(crate) fn new(opened: S, number: u64) -> Run<S> {
        Run { opened, number }
    }

    /// Opens a run with as many words after those of its choices.
    pub(crate) fn explored(
        builder: &impl Explorable<Opened = S>,
        mut choices: Choices,
        words: usize,
        number: u64,
    ) -> Result<Run<S>, Error> {
        let words = choices.words(words);
        let limits = Limits {
            choices: Some(choices),
            ..Limits::default()
        };
        Ok(Run::new(builder.made(words, limits)?, number))
    }

    /// Returns a number below `branches`. An exploration tries every one, together with the outcomes of the draws. With
    /// [`seeds`](crate::seeds) the seed chooses.
    ///
    /// # Panics
    /// If `branches` is 0.
    ///
    /// ```
    /// # use blobcrash::{Error, Store, explore};
    /// let visited = explore(&Store::builder(), 10, |run| Ok::<_, Error>((run.choose(2), run.choose(2))));
    /// assert_eq!(visited.unwrap().runs, 4);
    /// ```
    #[must_use]
    pub fn choose(&self, branches: usize) -> usize {
        assert!(branches > 0, "there is nothing to choose from");
        let opened = &self.opened;
        opened.with_limits(|limits, session| limits.choose(branches, session))
    }

    /// Returns the lines of all calls, with the words of the draws so far.
    ///
    /// ```
    /// # use blobcrash::{Error, Store, explore};
    /// let visited = explore(&Store::builder(), 10, |run| {
    ///     run.crash()?;
    ///     Ok::<_, Error>(run.script())
    /// });
    /// assert!(visited.unwrap().outcomes.contains_key("crash\n"));
    /// ```
    #[must_use]
    pub fn script(&self) -> String {
        let all = self.opened.record();
        let words = self.choices(|choices| (!choices.is_short).then(|| drawn_line(choices)));
        match words {
            // The first line of the record has the words that were given.
            Some(words) => words + all.split_once('\n').map_or("", |(_, calls)| calls),
            None => all,
        }
    }

    /// Returns what the crashes met.
    pub(crate) fn met(&self) -> Met {
        self.opened.with_limits(|limits, _| limits.unsynced.met)
    }

    /// Takes what the next run of an exploration begins with.
    pub(crate) fn pass_on(&self) -> (Path, States) {
        self.opened.with_limits(|limits, _| {
            let choices = limits.choices.as_mut();
            choices.map(Choices::pass_on).unwrap_or_default()
        })
    }

    /// Counts the last draws, and returns what `read` takes from the choices.
    pub(crate) fn choices<T: Default>(&self, read: impl FnOnce(&mut Choices) -> T) -> T {
        self.opened.with_limits(|limits, session| {
            limits.count_draws(0, session);
            limits.choices.as_mut().map(read).unwrap_or_default()
        })
    }
}

/// Returns the line with the words of a run's draws. It is empty if there are none.
fn drawn_line(choices: &Choices) -> String {
    match choices.drawn().as_slice() {
        [] => String::new(),
        words => format!("words {}\n", words_text(words)),
    }
}

/// If a body panics, its script is printed.
impl<S: Limited> Drop for Run<S> {
    fn drop(&mut self) {
        if std::thread::panicking() {
            eprintln!("run {} failed; its script:\n{}", self.number, self.script());
        }
    }
}
