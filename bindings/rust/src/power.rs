//! The power of a store, which can fail at a chosen call.
use crate::limits::{Limited, Limits, Recorded, cut_after, is_power_off};
use crate::shared::State;
use crate::{Error, Store};

impl Limited for Store {
    fn with_limits<T>(&self, act: impl FnOnce(&mut Limits, &mut dyn Recorded) -> T) -> T {
        let mut state = self.shared.lock();
        let State {
            limits, session, ..
        } = &mut *state;
        act(limits, session)
    }

    fn record(&self) -> String {
        self.script()
    }
}

impl Store {
    /// Turns the power off after `calls` more calls that may change what a crash leaves. These are opens, writes, resizes, syncs,
    /// removals and admissions, whatever they return.
    ///
    /// From then on every call returns `PowerLoss`, except `configure`, until the store has crashed and reopened, as by
    /// [`restart`](Store::restart) or [`recover`](Store::recover). Returns `PowerLoss` if the power is off already.
    ///
    /// ```
    /// # use blobcrash::{Error, Store, WriteOptions};
    /// let store = Store::builder().seed(7).open()?;
    /// store.crash_after(2)?;
    /// let (blob, _) = store.open("p", b"b")?;
    /// blob.write_at(0, b"durable", WriteOptions::SYNC)?;
    /// assert_eq!(blob.write_at(7, b"lost", WriteOptions::SYNC), Err(Error::PowerLoss));
    /// store.restart()?;
    /// assert_eq!(store.open("p", b"b")?.1, 7);
    /// # Ok::<(), Error>(())
    /// ```
    pub fn crash_after(&self, calls: u64) -> Result<(), Error> {
        cut_after(&mut self.shared.lock().session, calls)
    }

    /// Returns whether the power is off.
    ///
    /// ```
    /// let store = blobcrash::Store::builder().open()?;
    /// store.crash_after(0)?;
    /// assert!(store.scan("p").is_err() && store.is_power_off());
    /// # Ok::<(), blobcrash::Error>(())
    /// ```
    #[must_use]
    pub fn is_power_off(&self) -> bool {
        is_power_off(&mut self.shared.lock().session)
    }

    /// Restarts the store, calls `step` and returns what that returns. Does both again if the power fails meanwhile. Returns the error
    /// of a restart.
    ///
    /// ```
    /// # use blobcrash::Store;
    /// let store = Store::builder().open()?;
    /// store.crash_after(1)?;
    /// let mut steps = 0;
    /// store.recover(|store| {
    ///     steps += 1;
    ///     store.open("p", b"a")?;
    ///     store.open("p", b"b").map(drop)
    /// })?;
    /// assert_eq!(steps, 2);
    /// # Ok::<(), blobcrash::Error>(())
    /// ```
    pub fn recover<T, E: From<Error>>(
        &self,
        mut step: impl FnMut(&Store) -> Result<T, E>,
    ) -> Result<T, E> {
        loop {
            self.restart()?;
            let outcome = step(self);
            if !self.is_power_off() {
                return outcome;
            }
        }
    }
}
