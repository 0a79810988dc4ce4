//! The registry of durability debt: what closed handles leave.
use crate::Error;
use crate::debt_calls::{DebtCall, DebtKind, DebtReply};
use crate::library::Session;
use crate::script::hex;
use std::future::Future;
use std::pin::Pin;
use std::sync::{Arc, Mutex, MutexGuard, PoisonError};
use std::task::{Context, Poll, Waker};

/// A partition and a name.
type Key = (String, Vec<u8>);

/// The latest open of each name, and what the closed ones left: work that isn't done, debt and failures. The registry is the library's.
///
/// A clone is the same registry. Threads may share it.
///
/// ```
/// use blobcrash::Pending;
///
/// let pending = Pending::new()?;
/// let (first, _, owes) = pending.admit("p", b"b", false)?;
/// assert!(!owes);
/// let sender = first.release()?.unwrap();
/// drop(first);
/// let (second, predecessor, owes) = pending.admit("p", b"b", true)?;
/// assert!(owes && !predecessor.unwrap().is_settled());
/// pending.settle(sender, true, None);
/// assert_eq!(second.debt(), Ok(true));
/// second.clear(Ok(()));
/// assert_eq!(second.debt(), Ok(false));
/// # Ok::<(), blobcrash::Error>(())
/// ```
#[derive(Clone, Debug)]
pub struct Pending {
    state: Arc<Mutex<State>>,
}

#[derive(Debug)]
struct State {
    session: Session,
    /// The tasks that wait for a settlement.
    waiting: Vec<Waker>,
}

/// The open of a name. It is closed when it is dropped.
#[derive(Debug)]
pub struct Generation {
    pending: Pending,
    key: Key,
    number: usize,
}

/// Settles an open with outstanding work, by [`Pending::settle`].
#[derive(Debug)]
#[must_use = "a name whose sender isn't given to `Pending::settle` goes on settling"]
pub struct Sender {
    pending: Pending,
    key: Key,
    number: usize,
}

/// The predecessor of an open, which may not have settled.
///
/// As a future it is ready when the predecessor has settled.
#[derive(Clone, Debug)]
pub struct Receiver {
    pending: Pending,
    number: usize,
}

impl Pending {
    /// Makes a registry in which nothing happened. Errors: `OutOfMemory`.
    ///
    /// ```
    /// assert!(!blobcrash::Pending::new().unwrap().keeps("p", b"b"));
    /// ```
    pub fn new() -> Result<Pending, Error> {
        let state = State {
            session: Session::open("")?,
            waiting: Vec::new(),
        };
        Ok(Pending {
            state: Arc::new(Mutex::new(state)),
        })
    }

    /// Admits an open. `existing` says whether the blob existed; if not, the name is forgotten first.
    ///
    /// Returns the open, its predecessor if that hasn't settled, and whether the name owes: a predecessor or debt.
    ///
    /// Errors, with nothing changed:
    /// - `BlobAlreadyOpen` if the name's open isn't closed.
    /// - A failure that was kept.
    /// - `GenerationsExhausted`, `Memory`.
    ///
    /// ```
    /// # use blobcrash::{Error, Pending};
    /// let pending = Pending::new().unwrap();
    /// let (open, predecessor, owes) = pending.admit("p", b"b", false).unwrap();
    /// assert!(predecessor.is_none() && !owes);
    /// assert!(matches!(pending.admit("p", b"b", true), Err(Error::BlobAlreadyOpen(..))));
    /// # drop(open);
    /// ```
    pub fn admit(
        &self,
        partition: &str,
        name: &[u8],
        existing: bool,
    ) -> Result<(Generation, Option<Receiver>, bool), Error> {
        let already = || Error::BlobAlreadyOpen(partition.to_owned(), hex(name));
        let call = DebtCall::of_name(DebtKind::Admit).flag(existing);
        let reply = self.lock().session.owe(call, partition, name, already)?;
        let generation = Generation {
            pending: self.clone(),
            key: (partition.to_owned(), name.to_vec()),
            number: reply.number,
        };
        let receiver = reply.has_predecessor.then(|| Receiver {
            pending: self.clone(),
            number: reply.predecessor,
        });
        Ok((generation, receiver, reply.flag))
    }

    /// Settles an open once all its work is done. Adds debt if `dirty`, and keeps a failure, unless the name was forgotten since. Tasks
    /// that wait for it are woken.
    ///
    /// # Panics
    /// If the sender is of another registry, the failure has texts, or memory is refused.
    ///
    /// ```
    /// # use blobcrash::{Error, Pending};
    /// let pending = Pending::new().unwrap();
    /// let open = pending.admit("p", b"b", false).unwrap().0;
    /// pending.settle(open.release().unwrap().unwrap(), false, Some(Error::WriteFailed));
    /// drop(open);
    /// assert_eq!(pending.admit("p", b"b", true).err(), Some(Error::WriteFailed));
    /// ```
    pub fn settle(&self, sender: Sender, dirty: bool, failure: Option<Error>) {
        assert!(
            Arc::ptr_eq(&self.state, &sender.pending.state),
            "a sender of another registry"
        );
        let call = DebtCall::of_open(DebtKind::Settle, sender.number)
            .flag(dirty)
            .failure(failure);
        let (partition, name) = &sender.key;
        let mut state = self.lock();
        let settled = state.session.owe(call, partition, name, || Error::Closed);
        settled.expect("a failure has no texts");
        let waiting = std::mem::take(&mut state.waiting);
        drop(state);
        waiting.into_iter().for_each(Waker::wake);
    }

    /// Forgets a name that is removed, or without a name all names of a partition. Nothing is owed any more, and earlier opens and senders
    /// don't count.
    ///
    /// ```
    /// # use blobcrash::Pending;
    /// let pending = Pending::new().unwrap();
    /// let old = pending.admit("p", b"b", false).unwrap().0;
    /// pending.forget("p", None);
    /// assert!(pending.admit("p", b"b", true).is_ok());
    /// # drop(old);
    /// ```
    pub fn forget(&self, partition: &str, name: Option<&[u8]>) {
        let kind = match name {
            Some(_) => DebtKind::Forget,
            None => DebtKind::ForgetPartition,
        };
        let forgotten = self.asked(kind, partition, name.unwrap_or_default());
        forgotten.expect("a name can be forgotten");
    }

    /// Returns whether anything is kept of a name: an open that isn't closed or not settled, debt, or a failure.
    ///
    /// ```
    /// # use blobcrash::Pending;
    /// let pending = Pending::new().unwrap();
    /// let open = pending.admit("p", b"b", false).unwrap();
    /// assert!(pending.keeps("p", b"b"));
    /// drop(open);
    /// assert!(!pending.keeps("p", b"b"));
    /// ```
    #[must_use]
    pub fn keeps(&self, partition: &str, name: &[u8]) -> bool {
        let asked = self.asked(DebtKind::Keeps, partition, name);
        asked.expect("a name can be looked up")
    }

    fn asked(&self, kind: DebtKind, partition: &str, name: &[u8]) -> Result<bool, Error> {
        let mut state = self.lock();
        let call = DebtCall::of_name(kind);
        let reply = state.session.owe(call, partition, name, || Error::Closed)?;
        Ok(reply.flag)
    }

    fn lock(&self) -> MutexGuard<'_, State> {
        self.state.lock().unwrap_or_else(PoisonError::into_inner)
    }
}

impl Generation {
    /// Returns the partition and the name.
    ///
    /// ```
    /// # use blobcrash::Pending;
    /// let open = Pending::new().unwrap().admit("p", b"b", false).unwrap().0;
    /// assert_eq!(open.key(), &("p".to_owned(), b"b".to_vec()));
    /// ```
    #[must_use]
    pub fn key(&self) -> &(String, Vec<u8>) {
        &self.key
    }

    /// Releases the name for its next open. Returns what settles this open, or `None` if the name was forgotten or opened again since, or
    /// a predecessor is still settling. Errors: `GenerationsExhausted`, `Memory`, with nothing changed.
    ///
    /// ```
    /// # use blobcrash::Pending;
    /// let pending = Pending::new().unwrap();
    /// let open = pending.admit("p", b"b", false).unwrap().0;
    /// let sender = open.release().unwrap();
    /// assert!(sender.is_some() && open.release().unwrap().is_none());
    /// # pending.settle(sender.unwrap(), false, None);
    /// ```
    pub fn release(&self) -> Result<Option<Sender>, Error> {
        let reply = self.owe(self.call(DebtKind::Release))?;
        Ok(reply.flag.then(|| Sender {
            pending: self.pending.clone(),
            key: self.key.clone(),
            number: reply.number,
        }))
    }

    /// Returns whether debt is left, to be asked once the predecessor has settled. Returns a failure that was kept, and `Ok(false)` if the
    /// name was forgotten or opened again since.
    ///
    /// ```
    /// # use blobcrash::Pending;
    /// let open = Pending::new().unwrap().admit("p", b"b", false).unwrap().0;
    /// assert_eq!(open.debt(), Ok(false));
    /// ```
    pub fn debt(&self) -> Result<bool, Error> {
        let reply = self.owe(self.call(DebtKind::Debt))?;
        Ok(reply.flag)
    }

    /// Records the outcome of establishing the debt. A success ends the debt, a failure is kept. Ignored if the name was forgotten or opened
    /// again since. A success doesn't end a failure.
    ///
    /// # Panics
    /// If the failure has texts.
    ///
    /// ```
    /// # use blobcrash::{Error, Pending};
    /// let open = Pending::new().unwrap().admit("p", b"b", false).unwrap().0;
    /// open.clear(Err(Error::ReadFailed));
    /// open.clear(Ok(()));
    /// assert_eq!(open.debt(), Err(Error::ReadFailed));
    /// ```
    pub fn clear(&self, outcome: Result<(), Error>) {
        let cleared = self.owe(self.call(DebtKind::Clear).failure(outcome.err()));
        cleared.expect("a failure has no texts");
    }

    /// Keeps a failure until the name is forgotten. Ignored if it was forgotten or opened again since.
    ///
    /// # Panics
    /// If the failure has texts.
    ///
    /// ```
    /// # use blobcrash::{Error, Pending};
    /// let open = Pending::new().unwrap().admit("p", b"b", false).unwrap().0;
    /// open.fail(Error::WriteFailed);
    /// assert_eq!(open.debt(), Err(Error::WriteFailed));
    /// ```
    pub fn fail(&self, failure: Error) {
        let kept = self.owe(self.call(DebtKind::Fail).failure(Some(failure)));
        kept.expect("a failure has no texts");
    }

    fn call(&self, kind: DebtKind) -> DebtCall {
        DebtCall::of_open(kind, self.number)
    }

    fn owe(&self, call: DebtCall) -> Result<DebtReply, Error> {
        let mut state = self.pending.lock();
        state.session.owe(call, "", b"", || Error::Closed)
    }
}

impl Drop for Generation {
    fn drop(&mut self) {
        let closed = self.owe(self.call(DebtKind::Close));
        debug_assert!(closed.is_ok(), "an open is closed once");
    }
}

impl Receiver {
    /// Returns whether the predecessor has settled.
    ///
    /// ```
    /// # use blobcrash::Pending;
    /// let pending = Pending::new().unwrap();
    /// let first = pending.admit("p", b"b", false).unwrap().0;
    /// let sender = first.release().unwrap().unwrap();
    /// drop(first);
    /// let (_second, predecessor, _) = pending.admit("p", b"b", true).unwrap();
    /// let predecessor = predecessor.unwrap();
    /// assert!(!predecessor.is_settled());
    /// pending.settle(sender, false, None);
    /// assert!(predecessor.is_settled());
    /// ```
    #[must_use]
    pub fn is_settled(&self) -> bool {
        self.is_settled_in(&mut self.pending.lock())
    }

    fn is_settled_in(&self, state: &mut State) -> bool {
        let call = DebtCall::of_open(DebtKind::IsSettled, self.number);
        let asked = state.session.owe(call, "", b"", || Error::Closed);
        asked.expect("a predecessor is of this registry").flag
    }
}

impl Future for Receiver {
    type Output = ();

    fn poll(self: Pin<&mut Self>, context: &mut Context<'_>) -> Poll<()> {
        let mut state = self.pending.lock();
        if self.is_settled_in(&mut state) {
            return Poll::Ready(());
        }
        state.waiting.push(context.waker().clone());
        Poll::Pending
    }
}
