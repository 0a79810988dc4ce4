use crate::shared::Shared;
use crate::{Error, Store};

impl Store {
    /// Returns another store in the same state: blobs, pending writes, settings, the power, and the words that the generator gives next.
    /// From here on no call of one changes the other, so that a run forks, as after a crash. No call is made again: a fork takes as long as
    /// copies of what isn't synced, of small blobs and of the script. Threads may use the two at the same time.
    ///
    /// Blobs and started syncs stay with the store that returned them. In the other one, lines of [`Store::call`] name them by the same
    /// numbers. A name that is open stays so until the new store is reopened.
    ///
    /// Errors:
    /// - `Argument` if the store is that of an explored run.
    /// - `OutOfMemory`.
    ///
    /// ```
    /// # use blobcrash::{Store, WriteOptions};
    /// let store = Store::builder().seed(7).open()?;
    /// let (blob, _) = store.open("p", b"b")?;
    /// blob.write_at(0, b"abc", WriteOptions::SYNC)?;
    /// store.crash()?;
    /// let fork = store.fork()?;
    /// for outcome in [store, fork] {
    ///     outcome.reopen()?;
    ///     assert_eq!(outcome.open("p", b"b")?.1, 3);
    /// }
    /// # Ok::<(), blobcrash::Error>(())
    /// ```
    pub fn fork(&self) -> Result<Store, Error> {
        let mut state = self.shared.lock();
        if state.limits.choices.is_some() {
            return Err(Error::argument(
                "a store of an explored run can't be forked",
            ));
        }
        let shared = Shared::new(state.fork()?, self.shared.has_draws);
        Ok(Store { shared })
    }
}
