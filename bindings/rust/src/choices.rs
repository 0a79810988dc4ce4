//! The choices of an explored run: its draws, its branches and its power losses.
use crate::Error;
use crate::expecting::{State, States};
use crate::path_text::text_of;
use crate::paths::{Kind, Path, Words};
use crate::replay::Replay;
use std::mem;
use std::panic::resume_unwind;

/// The choices of a run, and its limits. It is public since `Explorable` has it, in a private module.
#[derive(Debug)]
pub struct Choices {
    pub(crate) path: Path,
    /// How many more times the power may fail.
    pub(crate) losses: u64,
    /// Whether the run took all words that it was given.
    pub(crate) is_short: bool,
    /// How many calls the run has, and at most may have. It may have as many choices.
    pub(crate) calls: u64,
    most: u64,
    /// Whether it has more.
    pub(crate) is_long: bool,
    /// What decides the run in place of the path.
    pub(crate) replay: Option<Box<Replay>>,
    /// The states that this run and earlier ones came to by restarts, and whether this one was ended in one of them.
    pub(crate) states: States,
    pub(crate) is_met: bool,
}

/// How a run ended.
#[derive(Debug, Default)]
pub(crate) struct RunEnd {
    /// It has too many calls or choices.
    pub(crate) is_long: bool,
    /// It was ended at a restart, in a state that an earlier run came to.
    pub(crate) is_met: bool,
    /// It took all words that it was given, and wasn't ended so.
    pub(crate) is_short: bool,
    /// It made the choices of its path, and no fewer.
    pub(crate) is_whole: bool,
}

/// What a run unwinds with that an exploration ends.
struct Ended;

/// Unwinds to the exploration from a run that is too long, without the message of a panic. While a panic unwinds already, returns an error.
pub(crate) fn too_long() -> Result<(), Error> {
    if cfg!(panic = "abort") && !std::thread::panicking() {
        eprintln!("a run of an exploration is too long: {BOUND_IT}");
    }
    end_run()
}

/// Unwinds to the exploration, as `too_long` does.
pub(crate) fn end_run() -> Result<(), Error> {
    if std::thread::panicking() {
        return Err(Error::PowerLoss);
    }
    resume_unwind(Box::new(Ended))
}

/// Why a run is too long.
pub(crate) const BOUND_IT: &str =
    "a loop that retries until it succeeds never ends when every try fails; bound it";

impl Choices {
    pub(crate) fn new(path: Path, states: States, losses: u64, most: u64) -> Choices {
        Choices {
            path,
            losses,
            is_short: false,
            calls: 0,
            most,
            is_long: false,
            replay: None,
            states,
            is_met: false,
        }
    }

    /// The choices of a run that is made again.
    pub(crate) fn again(replay: Replay, most: u64) -> Choices {
        let mut choices = Choices::new(Path::default(), States::default(), replay.losses(), most);
        choices.replay = Some(Box::new(replay));
        choices
    }

    /// How many more times the power may fail, if the run is one of a search that ends runs at a restart: not of a run by given choices,
    /// nor within the path, of which all runs are made.
    pub(crate) fn searched_losses(&self) -> Option<u64> {
        let is_whole = self.path.made() >= self.path.planned() && !self.is_short;
        (self.replay.is_none() && is_whole).then_some(self.losses)
    }

    /// Returns whether the run must end, since another one came to this state.
    pub(crate) fn arrive<V>(&mut self, state: State, expected: V) -> bool
    where
        V: PartialEq + Send + 'static,
    {
        self.is_met = self.states.has_met(state, expected, self.path.taken());
        self.is_met
    }

    /// The words of the draws that the run has made.
    pub(crate) fn drawn(&self) -> Vec<u64> {
        let again = self.replay.as_ref();
        again.map_or_else(|| self.path.drawn(), |replay| replay.words().to_vec())
    }

    /// The path of the run, as a text.
    pub(crate) fn path_text(&self) -> String {
        let again = self.replay.as_ref();
        again.map_or_else(|| text_of(self.path.taken()), |replay| replay.path())
    }

    /// Counts a call. Returns whether the run may have it.
    pub(crate) fn count_call(&mut self) -> bool {
        self.calls += 1;
        self.is_long |= self.calls > self.most;
        !self.is_long
    }

    /// Ends the run, and returns how it ended. Lifts its limit, since nothing could catch a later unwinding: a body may keep its store.
    pub(crate) fn end(&mut self) -> RunEnd {
        self.most = u64::MAX;
        let is_short = self.is_short && !self.is_met;
        RunEnd {
            is_long: mem::take(&mut self.is_long),
            is_met: self.is_met,
            is_short,
            is_whole: !is_short && self.path.end(),
        }
    }

    /// Takes what the next run begins with.
    pub(crate) fn pass_on(&mut self) -> (Path, States) {
        (mem::take(&mut self.path), mem::take(&mut self.states))
    }

    /// Begins the run. Returns the words of the path, then `more` zeros and a last word that isn't zero; of a run that is made again those
    /// that it is given, and as many that make draws false.
    pub(crate) fn words(&mut self, more: usize) -> Words {
        if let Some(replay) = &mut self.replay {
            return replay.begin(more);
        }
        self.path.begin_with(more)
    }

    /// Takes the next branch of a choice.
    pub(crate) fn take(&mut self, kind: Kind, of: usize) -> usize {
        if let Some(replay) = &mut self.replay {
            return replay.take(kind, of);
        }
        let branch = self.path.choose(kind, of);
        self.is_long |= self.path.made() as u64 > self.most;
        branch
    }

    /// Counts the draws up to here, after which `left` words are left. If `sizes` isn't 0, the last one drew one of that many.
    pub(crate) fn count(&mut self, left: usize, sizes: u64) {
        self.is_short |= left == 0;
        if let Some(replay) = &mut self.replay {
            return replay.count(left, sizes);
        }
        self.path.count(left, sizes);
        self.is_long |= self.path.made() as u64 > self.most;
    }

    /// Chooses whether the power fails now.
    pub(crate) fn power_fails(&mut self) -> bool {
        let fails = self.take(Kind::Power, 2) == 1;
        self.losses -= u64::from(fails);
        fails
    }
}
