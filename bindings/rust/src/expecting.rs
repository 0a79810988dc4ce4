//! Restarts of an explored run in a state that an earlier run came to as well.
use crate::choices::end_run;
use crate::foreign::Choice;
use crate::limits::Recorded;
use crate::script::{tokens, unhex};
use crate::{Error, Run, Store};
use std::any::Any;
use std::collections::{BTreeSet, HashMap};
use std::fmt;
use std::panic::Location;

/// What a body expects. Values of different types differ.
pub(crate) trait Expected: Send {
    fn is(&self, other: &dyn Any) -> bool;
}

impl<V: PartialEq + Send + 'static> Expected for V {
    fn is(&self, other: &dyn Any) -> bool {
        other.downcast_ref::<V>() == Some(self)
    }
}

/// The state of a store after a restart, with the place in the body.
#[derive(Debug, PartialEq, Eq, Hash)]
pub(crate) struct State {
    at: &'static Location<'static>,
    /// The partition, the name and the durable bytes of each blob.
    blobs: Vec<(String, Vec<u8>, Vec<u8>)>,
    settings: String,
    crashes: usize,
    losses: u64,
    /// How many more calls have power, if they are counted.
    power: u64,
}

/// What a body expected, and the choices by which its run came.
type Arrival = (Box<dyn Expected>, Vec<Choice>);

/// The states that runs came to, each with what their bodies expected and the choices by which they came.
#[derive(Default)]
pub(crate) struct States {
    met: HashMap<State, Vec<Arrival>>,
}

impl fmt::Debug for States {
    fn fmt(&self, f: &mut fmt::Formatter<'_>) -> fmt::Result {
        write!(f, "States of {} restarts", self.met.len())
    }
}

impl States {
    /// Returns whether an earlier run came to this state by other choices. If none did, notes this one.
    pub(crate) fn has_met<V>(&mut self, state: State, expected: V, taken: &[Choice]) -> bool
    where
        V: PartialEq + Send + 'static,
    {
        let met = self.met.entry(state).or_default();
        if let Some((_, by)) = met.iter().find(|(value, _)| value.is(&expected)) {
            return by != taken;
        }
        met.push((Box::new(expected), taken.to_vec()));
        false
    }
}

impl Run<Store> {
    /// Restarts the store, as [`Store::restart`]. An exploration ends the run here if an earlier one was at this place of the source with
    /// the same durable bytes and settings, and an equal value: since all that follows was tried. [`Explored::met`](crate::Explored::met)
    /// counts such runs.
    ///
    /// `expected` is all of the body that what follows depends on: what it still expects of the store, and which place it is, if a loop or
    /// a function has more than one. The run is ended by unwinding, like a panic but without its message.
    ///
    /// Errors: those of a restart; `Argument` in an exploration, if the builder is `unrecorded`.
    ///
    /// ```
    /// # use blobcrash::{Error, Exploration, Probability, Store, WriteOptions};
    /// # let half = blobcrash::Config::default().write(blobcrash::WriteConfig {
    /// #     failure_rate: Probability::ZERO,
    /// #     retention_rate: Probability::new(1, 2).unwrap(),
    /// #     mode: blobcrash::PartialWriteMode::Subset,
    /// # });
    /// // Each byte is kept or lost. Whether the second write failed doesn't matter: its bytes are the same.
    /// let visited = Exploration::of(&Store::builder().config(half)).visit(|run| {
    ///     let (blob, _) = run.open("p", b"b")?;
    ///     blob.write_at(0, b"aa", WriteOptions::default())?;
    ///     blob.write_at(0, b"aa", WriteOptions::default())?;
    ///     run.restart_expecting("two bytes")?;
    ///     Ok::<_, Error>(run.open("p", b"b")?.1)
    /// }).unwrap();
    /// assert_eq!((visited.runs, visited.met), (4, 12));
    /// ```
    #[track_caller]
    pub fn restart_expecting<V>(&self, expected: V) -> Result<(), Error>
    where
        V: PartialEq + Send + 'static,
    {
        let at = Location::caller();
        self.restart()?;
        self.arrive(at, expected)
    }

    /// As [`Store::recover`], with restarts that are those of [`Run::restart_expecting`].
    ///
    /// ```
    /// # use blobcrash::{Error, Exploration, Store};
    /// let visited = Exploration::of(&Store::builder()).power_losses(2).visit(|run| {
    ///     run.recover_expecting("a blob", |store| store.open("p", b"b").map(drop))?;
    ///     Ok::<_, Error>(())
    /// }).unwrap();
    /// assert!(visited.is_complete);
    /// ```
    #[track_caller]
    pub fn recover_expecting<V, T, E>(
        &self,
        expected: V,
        mut step: impl FnMut(&Store) -> Result<T, E>,
    ) -> Result<T, E>
    where
        V: PartialEq + Clone + Send + 'static,
        E: From<Error>,
    {
        let at = Location::caller();
        loop {
            self.restart()?;
            self.arrive(at, expected.clone())?;
            let outcome = step(self);
            if !self.is_power_off() {
                return outcome;
            }
        }
    }

    /// Ends an explored run if another one came to this state.
    fn arrive<V>(&self, at: &'static Location<'static>, expected: V) -> Result<(), Error>
    where
        V: PartialEq + Send + 'static,
    {
        let losses = self.choices(|choices| choices.searched_losses());
        let Some(losses) = losses else {
            return Ok(());
        };
        let state = state_of(self, at, losses)?;
        if self.choices(|choices| choices.arrive(state, expected)) {
            return end_run();
        }
        Ok(())
    }
}

fn state_of(store: &Store, at: &'static Location<'static>, losses: u64) -> Result<State, Error> {
    let mut inner = store.shared.lock();
    let Some(record) = &inner.session.record else {
        return Err(Error::argument(
            "a restart is compared by the script: the builder can't be `unrecorded`",
        ));
    };
    let text = record.calls();
    let (mut names, mut crashes) = (BTreeSet::new(), 0);
    for line in text.lines() {
        match tokens(line)[..] {
            ["image" | "open" | "loose", partition, name, ..] => {
                names.extend(unhex(name).map(|name| (partition.to_owned(), name)));
            }
            ["crash"] => crashes += 1,
            _ => {}
        }
    }
    let mut blobs = Vec::new();
    for (partition, name) in names {
        if let Some(raw) = inner.session.durable_blob(&partition, &name, true)? {
            blobs.push((partition, name, raw));
        }
    }
    Ok(State {
        at,
        blobs,
        settings: format!("{:?}", inner.config()),
        crashes,
        losses,
        power: inner.session.power().left,
    })
}
