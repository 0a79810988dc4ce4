//! What may stop the calls of a run: the power of its session, and the choices of an exploration. Stores and files have the same.
use crate::Error;
use crate::choices::{Choices, too_long};
use crate::foreign::PowerState;
use crate::paths::Kind;
use crate::unsynced::Unsynced;

/// A session of the library that draws words and records its calls.
pub trait Recorded {
    /// Returns how many words the generator has left, or `None` if it has a seed.
    fn words_left(&mut self) -> Option<usize>;

    /// Adds a comment to the record of the calls, a line for each of the text's.
    fn note(&mut self, text: &str);

    /// Returns the supply of power.
    fn power(&mut self) -> PowerState;

    /// Turns the power on. With a number it goes off after as many calls that may change what a crash leaves.
    fn set_power(&mut self, calls: Option<u64>);

    /// Returns whether a call wasn't made since the power was set.
    fn has_lost(&self) -> bool;
}

/// Returns whether the power is off. It isn't yet if no call has found it off, and no crash.
pub(crate) fn is_power_off(session: &mut impl Recorded) -> bool {
    let power = session.power();
    power.is_off && (power.has_crashed || session.has_lost())
}

/// Turns the power off after this number of calls that may change something. Returns `PowerLoss` if it is off.
pub(crate) fn cut_after(session: &mut impl Recorded, calls: u64) -> Result<(), Error> {
    if is_power_off(session) {
        return Err(Error::PowerLoss);
    }
    session.set_power(Some(calls));
    Ok(())
}

/// What has limits: a store or files.
pub trait Limited {
    /// Calls `act` with the limits and the session, under the lock.
    #[doc(hidden)]
    fn with_limits<T>(&self, act: impl FnOnce(&mut Limits, &mut dyn Recorded) -> T) -> T;

    /// Returns the record of all calls. The first line has the words or the seed.
    #[doc(hidden)]
    fn record(&self) -> String;
}

/// The choices of a run.
#[derive(Debug, Default)]
pub struct Limits {
    /// The choices of an explored run.
    pub(crate) choices: Option<Choices>,
    /// The state of the generator from which a run with a seed chooses.
    pub(crate) chooser: Option<u64>,
    /// Of an explored run and of one with a seed.
    pub(crate) unsynced: Unsynced,
}

impl Limits {
    /// Whether this is a run of a search, of which unsynced writes are followed.
    pub(crate) fn is_search(&self) -> bool {
        self.choices.is_some() || self.chooser.is_some()
    }

    /// Counts a call of an explored run, or a use that is refused without one. If there are too many, unwinds to the exploration: no error
    /// would end a loop that retries. While a panic unwinds already, returns `PowerLoss`.
    pub(crate) fn count_call(&mut self) -> Result<(), Error> {
        let choices = self.choices.as_mut();
        if choices.is_some_and(|choices| !choices.count_call()) {
            return too_long();
        }
        Ok(())
    }

    /// Turns the power off before a call that may change what a crash leaves, if the path of an explored run does so.
    #[inline]
    pub(crate) fn permit(&mut self, session: &mut dyn Recorded, changes: impl FnOnce() -> bool) {
        let has_losses = |choices: &Choices| choices.losses > 0;
        let has_losses = self.choices.as_ref().is_some_and(has_losses);
        if !has_losses || session.power().is_off || !changes() {
            return;
        }
        self.count_draws(0, session);
        if self.choices.as_mut().is_some_and(Choices::power_fails) {
            session.set_power(Some(0));
        }
    }

    /// Counts the draws that an explored run has made. If `sizes` isn't 0, the last one drew one of that many.
    pub(crate) fn count_draws(&mut self, sizes: u64, session: &mut dyn Recorded) {
        if let (Some(choices), Some(left)) = (&mut self.choices, session.words_left()) {
            choices.count(left, sizes);
        }
    }

    /// Returns a number below `branches`.
    pub(crate) fn choose(&mut self, branches: usize, session: &mut dyn Recorded) -> usize {
        // Without an error to return, a run that is too long goes on while a panic unwinds.
        let _ = self.count_call();
        self.count_draws(0, session);
        let branch = match (&mut self.choices, &mut self.chooser) {
            (Some(choices), _) => choices.take(Kind::Branch, branches),
            (None, Some(state)) => (next(state) % branches as u64) as usize,
            (None, None) => 0,
        };
        session.note(&format!("choose({branches}) is {branch}"));
        if self.choices.as_ref().is_some_and(|choices| choices.is_long) {
            let _ = too_long();
        }
        branch
    }
}

/// Returns the next number of the generator SplitMix64.
pub(crate) fn next(state: &mut u64) -> u64 {
    *state = state.wrapping_add(0x9e37_79b9_7f4a_7c15);
    let mut mixed = *state;
    mixed = (mixed ^ (mixed >> 30)).wrapping_mul(0xbf58_476d_1ce4_e5b9);
    mixed = (mixed ^ (mixed >> 27)).wrapping_mul(0x94d0_49bb_1331_11eb);
    mixed ^ (mixed >> 31)
}

#[cfg(test)]
mod tests {
    use super::next;

    /// The first numbers of the seed 1234567, as Rosetta Code lists them.
    #[test]
    fn numbers_of_a_seed() {
        let mut state = 1_234_567;
        let numbers = [next(&mut state), next(&mut state), next(&mut state)];
        assert_eq!(
            numbers,
            [
                6_457_827_717_110_365_317,
                3_203_168_211_198_807_973,
                9_817_491_932_198_370_423
            ]
        );
    }
}
