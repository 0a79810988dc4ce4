use crate::limits::Recorded;
use crate::{Error, Store};

impl Store {
    /// Gives the words that the next draws take, before any that were pushed and aren't taken yet. A draw of a rate of 1/2 is true for 0
    /// and false for `u64::MAX`.
    ///
    /// Push as many words as the next call may take: one for each rate and, if a write fails or the store crashes, one for each byte.
    /// [`Store::script`] then has them all.
    ///
    /// Errors, with nothing pushed:
    /// - `Argument` if the store wasn't made with [`Builder::pushed`](crate::Builder::pushed), or calls took more words than were pushed.
    /// - `OutOfMemory`.
    ///
    /// ```
    /// # use blobcrash::{Config, Error, Probability, Store};
    /// let half = Config::default().scan(Probability::new(1, 2).unwrap());
    /// let store = Store::builder().config(half).pushed().open()?;
    /// store.push_words(&[u64::MAX, 0])?;
    /// assert!(matches!(store.scan("p"), Err(Error::PartitionMissing(_))));
    /// assert_eq!(store.scan("p"), Err(Error::Injected));
    /// # Ok::<(), Error>(())
    /// ```
    pub fn push_words(&self, words: &[u64]) -> Result<(), Error> {
        let mut state = self.shared.lock();
        if !state.is_pushed {
            return Err(Error::argument(
                "words are pushed into a store that `Builder::pushed` makes",
            ));
        }
        let left = state.session.words_left().unwrap_or(0);
        if left == 0 {
            return Err(Error::argument(
                "calls took more words than were pushed for them",
            ));
        }
        state.session.push_words(words)?;
        if let Some(record) = &mut state.session.record {
            record.push_words(words, left);
        }
        Ok(())
    }

    /// Returns how many of the given or pushed words are left, up to the last one that isn't zero. A store with pushed words has one
    /// more, which follows them. Returns `None` if the store has a seed, which gives words without end.
    ///
    /// ```
    /// # use blobcrash::{Config, Probability, Store};
    /// let half = Config::default().scan(Probability::new(1, 2).unwrap());
    /// let store = Store::builder().config(half).words(&[0, 0, 1]).open()?;
    /// assert!(store.scan("p").is_err());
    /// assert_eq!(store.words_left(), Some(2));
    /// # Ok::<(), blobcrash::Error>(())
    /// ```
    #[must_use]
    pub fn words_left(&self) -> Option<usize> {
        self.shared.lock().session.words_left()
    }
}
