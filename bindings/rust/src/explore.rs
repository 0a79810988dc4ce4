//! Every outcome of a small run.
use crate::choices::{BOUND_IT, Choices};
use crate::expecting::States;
use crate::limits::Limited;
use crate::path_text::choices_of;
use crate::paths::Path;
use crate::unsynced::Met;
use crate::{Builder, Error, Explorable, Run};
use std::collections::BTreeMap;
use std::fmt;
use std::panic::{AssertUnwindSafe, catch_unwind, resume_unwind};

/// How many words a run is given at first after those of its path.
const WORDS: usize = 64;
/// How many calls, and how many choices, a run has at most if no other limit is set.
const CALLS_PER_RUN: u64 = 10_000;
/// How many lines of a script that is too long are shown.
const SHOWN: usize = 40;

/// What an exploration visited.
///
/// ```
/// # use blobcrash::{Error, Explored, Store, explore};
/// let visited = explore(&Store::builder(), 10, |run| Ok::<_, Error>(run.choose(3))).unwrap();
/// assert_eq!(visited.runs, 3);
/// assert!(visited.is_complete);
/// assert_eq!(visited.outcomes.into_iter().collect::<Vec<_>>(), [(0, 1), (1, 1), (2, 1)]);
/// ```
#[derive(Clone, Debug, PartialEq, Eq)]
pub struct Explored<T> {
    /// How many runs there were.
    pub runs: u64,
    /// Each value that the body returned, and how many runs returned it.
    pub outcomes: BTreeMap<T, u64>,
    /// Whether these are all. They aren't if the limit was reached.
    pub is_complete: bool,
    /// How many more runs were ended at a [`Run::restart_expecting`], since another one had come to the same state.
    pub met: u64,
    /// A text if crashes met unsynced writes that they could not keep, as their retention was 0: then little of what a crash may leave was
    /// tried.
    ///
    /// ```
    /// # use blobcrash::{Error, Store, WriteOptions, explore};
    /// let visited = explore(&Store::builder(), 10, |run| {
    ///     run.open("p", b"b")?.0.write_at(0, b"abc", WriteOptions::default())?;
    ///     run.restart().map(drop)
    /// });
    /// let text = "1 run, all of them; no unsynced write could be kept: set `write 0 1 1 2 sectors 512`";
    /// assert_eq!(visited.unwrap().to_string(), text);
    /// ```
    pub unkept: &'static str,
}

impl<T: Ord> Explored<T> {
    /// What is visited before the first run.
    pub(crate) fn new() -> Explored<T> {
        Explored {
            runs: 0,
            outcomes: BTreeMap::new(),
            is_complete: false,
            met: 0,
            unkept: "",
        }
    }

    /// Counts a run. Returns `Failed` with its path if its body returned an error.
    pub(crate) fn add<S: Limited, E>(
        &mut self,
        run: &Run<S>,
        result: Result<T, E>,
        path: impl FnOnce(&Run<S>) -> String,
    ) -> Result<(), ExploreError<E>> {
        self.runs += 1;
        match result {
            Ok(outcome) => *self.outcomes.entry(outcome).or_insert(0) += 1,
            Err(error) => {
                return Err(ExploreError::Failed {
                    error,
                    run: self.runs,
                    path: Box::new(path(run)),
                    script: run.script(),
                });
            }
        }
        Ok(())
    }
}

impl<T> fmt::Display for Explored<T> {
    fn fmt(&self, f: &mut fmt::Formatter<'_>) -> fmt::Result {
        let end = if self.runs == 1 { "" } else { "s" };
        let all = if self.is_complete {
            "all of them"
        } else {
            "not all of them"
        };
        write!(f, "{} run{end}", self.runs)?;
        if self.met > 0 {
            write!(
                f,
                ", and {} up to a restart in a state met before",
                self.met
            )?;
        }
        write!(f, ", {all}")?;
        if self.unkept.is_empty() {
            return Ok(());
        }
        write!(f, "; {}", self.unkept)
    }
}

/// Why an exploration ended early.
///
/// ```
/// # use blobcrash::{ExploreError, Store, explore};
/// let failed = explore(&Store::builder(), 10, |run| match run.choose(3) {
///     2 => Err("two"),
///     branch => Ok(branch),
/// });
/// let (path, script) = (Box::new("2/3".to_owned()), "# choose(3) is 2\n".to_owned());
/// assert_eq!(failed, Err(ExploreError::Failed { error: "two", run: 3, path, script }));
/// ```
#[derive(Clone, Debug, PartialEq, Eq)]
// A box of a text has fewer bytes than the text: an error that is larger makes each result large.
#[allow(clippy::box_collection)]
pub enum ExploreError<E> {
    /// The body returned an error.
    Failed {
        /// What the body returned.
        error: E,
        /// The number of the run, from 1.
        run: u64,
        /// The choices of the run, with which [`Exploration::under`] and [`shrink`](crate::shrink()) make it again; `seed N` of a seed.
        path: Box<String>,
        /// The calls of the run, which make the same calls again; `blobcrash explain` shows them.
        script: String,
    },
    /// A run has more calls, or more draws and choices, than [`Exploration::calls_per_run`].
    TooLong {
        /// The number of the run, from 1.
        run: u64,
        /// How many it may have.
        most: u64,
        /// The calls of the run so far.
        script: String,
    },
    /// The body made other choices than before on the same path.
    NotDeterministic,
    /// A store, or files, can't be opened or not be explored: the builder has a seed or words, or no run is asked for.
    Store(Error),
}

impl<E> From<Error> for ExploreError<E> {
    fn from(error: Error) -> ExploreError<E> {
        ExploreError::Store(error)
    }
}

impl<E: fmt::Display> fmt::Display for ExploreError<E> {
    fn fmt(&self, f: &mut fmt::Formatter<'_>) -> fmt::Result {
        match self {
            ExploreError::Failed {
                error,
                run,
                path,
                script,
            } => {
                write!(
                    f,
                    "run {run} failed: {error}\nits path: {path}\nits script:\n{script}"
                )
            }
            ExploreError::TooLong { run, most, script } => {
                write!(
                    f,
                    "run {run} has more than {most} calls or draws: {BOUND_IT}. For a run that is as long, set \
                     `calls_per_run`\nits script starts with:\n"
                )?;
                let mut lines = script.split_inclusive('\n').take(SHOWN);
                lines.try_for_each(|line| f.write_str(line))
            }
            ExploreError::NotDeterministic => f.write_str(
                "the body isn't deterministic: along the same choices it must make the same calls, so it may use no clock, \
                 no random numbers of its own (use `choose`), and nothing that an earlier run has changed",
            ),
            ExploreError::Store(error) => error.fmt(f),
        }
    }
}

impl<E: fmt::Debug + fmt::Display> std::error::Error for ExploreError<E> {}

/// An exploration, which calls a body with a new store, or new [`files`](crate::files), for each combination of outcomes, depth first.
/// These are chosen in every way: whether each draw of a rate between 0 and 1 is true, each [`Run::choose`], and at which calls the power
/// fails.
///
/// ```
/// use blobcrash::{Error, Exploration, Store, WriteOptions};
///
/// // Whenever the power fails, the bytes are lost or durable as a whole.
/// let found = Exploration::of(&Store::builder()).power_losses(1).visit(|run| {
///     let write = || run.open("p", b"b")?.0.write_at(0, b"abc", WriteOptions::SYNC);
///     let is_acknowledged = write().is_ok();
///     let size = run.recover(|store| Ok::<_, Error>(store.open("p", b"b")?.1))?;
///     assert!(size == 3 || !is_acknowledged);
///     Ok::<_, Error>(size)
/// });
/// assert_eq!(found.unwrap().outcomes.into_iter().collect::<Vec<_>>(), [(0, 2), (3, 2)]);
/// ```
#[derive(Clone, Debug)]
#[must_use = "`visit` explores"]
pub struct Exploration<B = Builder> {
    builder: B,
    limit: u64,
    losses: u64,
    calls: u64,
    under: String,
}

impl<B: Explorable> Exploration<B> {
    /// An exploration of what this builder opens, without a limit and without power losses.
    ///
    /// ```
    /// # use blobcrash::{Error, Exploration, Store};
    /// let visited = Exploration::of(&Store::builder()).visit(|run| run.crash());
    /// assert_eq!(visited.unwrap().runs, 1);
    /// ```
    pub fn of(builder: &B) -> Exploration<B> {
        Exploration {
            builder: builder.clone(),
            limit: u64::MAX,
            losses: 0,
            calls: CALLS_PER_RUN,
            under: String::new(),
        }
    }

    /// Makes only the runs below a path: those that begin with its choices. With the path of a failure it is that run.
    ///
    /// ```
    /// # use blobcrash::{Error, Exploration, Store};
    /// let visited = Exploration::of(&Store::builder()).under("1/3").visit(|run| Ok::<_, Error>((run.choose(3), run.choose(2))));
    /// assert_eq!(visited.unwrap().outcomes.into_keys().collect::<Vec<_>>(), [(1, 0), (1, 1)]);
    /// ```
    pub fn under(mut self, path: &str) -> Exploration<B> {
        path.clone_into(&mut self.under);
        self
    }

    /// Sets how many runs are made at most.
    ///
    /// ```
    /// # use blobcrash::{Error, Exploration, Store};
    /// let visited = Exploration::of(&Store::builder()).limit(2).visit(|run| Ok::<_, Error>(run.choose(9)));
    /// assert!(!visited.unwrap().is_complete);
    /// ```
    pub fn limit(mut self, runs: u64) -> Exploration<B> {
        self.limit = runs;
        self
    }

    /// Lets the power fail at most this many times in a run, at each call that may change what a crash leaves: opens, writes, resizes,
    /// syncs, removals and admissions. This call and all later ones then return [`Error::PowerLoss`] until the store has crashed and
    /// reopened, as by [`Store::restart`](crate::Store::restart) and [`Store::recover`](crate::Store::recover).
    /// [`Store::is_power_off`](crate::Store::is_power_off) reports it. For files these are the calls of
    /// [`Files::crash_after`](crate::files::Files::crash_after), and the power is off until they have crashed.
    ///
    /// ```
    /// # use blobcrash::{Error, Exploration, Store};
    /// let visited = Exploration::of(&Store::builder()).power_losses(1).visit(|run| {
    ///     let _ = run.open("p", b"b");
    ///     Ok::<_, Error>(run.is_power_off())
    /// });
    /// assert_eq!(visited.unwrap().outcomes.into_iter().collect::<Vec<_>>(), [(false, 1), (true, 1)]);
    /// ```
    pub fn power_losses(mut self, losses: u64) -> Exploration<B> {
        self.losses = losses;
        self
    }

    /// Sets how many calls a run may have, and as many draws and choices: 10,000 if it isn't set. A run with more is ended by unwinding,
    /// like a panic but without its message, and `visit` returns [`ExploreError::TooLong`].
    ///
    /// ```
    /// # use blobcrash::{Config, ExploreError, Exploration, Probability, Store};
    /// let half = Config::default().sync(Probability::new(1, 2).unwrap());
    /// let found = Exploration::of(&Store::builder().config(half)).calls_per_run(100).visit(|run| {
    ///     let (blob, _) = run.open("p", b"b")?;
    ///     while blob.sync().is_err() {}
    ///     Ok::<_, blobcrash::Error>(())
    /// });
    /// assert!(matches!(found, Err(ExploreError::TooLong { run: 1, .. })));
    /// ```
    pub fn calls_per_run(mut self, calls: u64) -> Exploration<B> {
        self.calls = calls;
        self
    }

    /// Calls `body` with each run.
    ///
    /// The body must be deterministic. It may check with `assert!`: the script of a run that panics is printed. A run that takes more
    /// words than it was given is made again, and only then counts: so let the body return what you collect about all runs.
    ///
    /// Errors:
    /// - `Failed` for the first run in which the body returns an error.
    /// - `TooLong` for a run with too many calls or draws.
    /// - `NotDeterministic`.
    /// - `Store` with `Argument` if the limit is 0, the builder has a seed or words, or [`Exploration::under`] has no path; or with what
    ///   [`Builder::open`] returns.
    ///
    /// ```
    /// # use blobcrash::{ExploreError, Exploration, Store};
    /// let failed = Exploration::of(&Store::builder()).visit(|_| Err::<(), _>("always"));
    /// assert!(matches!(failed, Err(ExploreError::Failed { error: "always", .. })));
    /// ```
    pub fn visit<T: Ord, E>(
        &self,
        mut body: impl FnMut(&Run<B::Opened>) -> Result<T, E>,
    ) -> Result<Explored<T>, ExploreError<E>> {
        if self.limit == 0 {
            return Err(nothing_to_run());
        }
        let (mut path, mut words) = (Path::below(choices_of(&self.under)?), WORDS);
        let builder = self.builder.prepared(None)?;
        let mut visited = Explored::new();
        let mut states = States::default();
        let mut met = Met::default();
        while visited.runs < self.limit {
            let choices = Choices::new(path, states, self.losses, self.calls);
            let run = Run::explored(&builder, choices, words, visited.runs + 1)?;
            let result = catch_unwind(AssertUnwindSafe(|| body(&run)));
            let end = run.choices(Choices::end);
            if end.is_long {
                let (run, script, most) = (visited.runs + 1, run.script(), self.calls);
                return Err(ExploreError::TooLong { run, most, script });
            }
            let result = (!end.is_met).then(|| result.unwrap_or_else(|panic| resume_unwind(panic)));
            if end.is_short {
                words *= 2;
                (path, states) = run.pass_on();
                continue;
            }
            if !end.is_whole {
                return Err(ExploreError::NotDeterministic);
            }
            match result {
                Some(result) => {
                    met.add(run.met());
                    visited.add(&run, result, |run| {
                        run.choices(|choices| choices.path_text())
                    })?;
                }
                None => visited.met += 1,
            }
            (path, states) = run.pass_on();
            if !path.advance() {
                visited.is_complete = true;
                break;
            }
        }
        visited.unkept = met.note();
        Ok(visited)
    }
}

/// The error of an exploration without runs, which would check nothing.
pub(crate) fn nothing_to_run<E>() -> ExploreError<E> {
    let text = "there is nothing to run: no seeds, or a limit of 0 runs";
    ExploreError::Store(Error::argument(text))
}

/// Calls `body` with each run of an [`Exploration`] without power losses, at most `limit` times. Errors as [`Exploration::visit`].
///
/// ```
/// use blobcrash::{Config, Error, PartialWriteMode, Probability, Store, WriteConfig, WriteOptions, explore};
///
/// let kept_by_half = Config::default().write(WriteConfig {
///     failure_rate: Probability::ZERO,
///     retention_rate: Probability::new(1, 2).unwrap(),
///     mode: PartialWriteMode::Subset,
/// });
/// let visited = explore(&Store::builder().config(kept_by_half), u64::MAX, |run| {
///     let (blob, _) = run.open("p", b"b")?;
///     blob.write_at(0, b"abc", WriteOptions::default())?;
///     run.restart()?;
///     let (blob, size) = run.open("p", b"b")?;
///     blob.read_at(0, size as usize)
/// });
/// assert_eq!(visited.map(|all| all.runs), Ok(8));
/// ```
pub fn explore<B: Explorable, T: Ord, E>(
    builder: &B,
    limit: u64,
    body: impl FnMut(&Run<B::Opened>) -> Result<T, E>,
) -> Result<Explored<T>, ExploreError<E>> {
    Exploration::of(builder).limit(limit).visit(body)
}
