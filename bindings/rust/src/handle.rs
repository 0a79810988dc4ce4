use crate::Error;
use std::fmt;
#[cfg(feature = "async")]
use std::{
    future::Future,
    pin::Pin,
    task::{Context, Poll},
};

/// The outcome of started work. With the feature `async` it is a future of the outcome as well. A started sync is finished if its handle
/// is dropped.
///
/// ```
/// use blobcrash::storage::{Error, Handle};
///
/// assert_eq!(Handle::ready(Ok(3)).wait(), Ok(3));
/// assert_eq!(Handle::new(|| Err::<(), _>(Error::Injected)).wait(), Err(Error::Injected));
/// ```
#[must_use = "`wait` returns the outcome"]
pub struct Handle<T = ()> {
    /// `None` for a future that has returned.
    work: Option<Work<T>>,
}

type Work<T> = Box<dyn FnOnce() -> Result<T, Error> + Send>;

impl<T: Send + 'static> Handle<T> {
    /// Returns a handle with this outcome.
    ///
    /// ```
    /// # use blobcrash::storage::Handle;
    /// assert_eq!(Handle::ready(Ok("done")).wait(), Ok("done"));
    /// ```
    pub fn ready(outcome: Result<T, Error>) -> Handle<T> {
        Handle::new(|| outcome)
    }

    /// Returns a handle with the outcome that `finish` returns when it is asked for.
    ///
    /// ```
    /// # use blobcrash::storage::Handle;
    /// let store = blobcrash::Store::builder().seed(7).open()?;
    /// let (blob, _) = store.open("p", b"b")?;
    /// let started = blob.start_sync()?;
    /// Handle::new(|| started.finish()).wait()?;
    /// # Ok::<(), blobcrash::Error>(())
    /// ```
    pub fn new(finish: impl FnOnce() -> Result<T, Error> + Send + 'static) -> Handle<T> {
        Handle {
            work: Some(Box::new(finish)),
        }
    }
}

impl<T> Handle<T> {
    /// Returns the outcome.
    ///
    /// # Panics
    /// If the handle was polled as a future and has returned.
    ///
    /// ```
    /// # use blobcrash::storage::Handle;
    /// assert_eq!(Handle::ready(Ok(())).wait(), Ok(()));
    /// ```
    pub fn wait(mut self) -> Result<T, Error> {
        self.finish()
    }

    fn finish(&mut self) -> Result<T, Error> {
        let work = self.work.take();
        work.expect("a handle returns its outcome once")()
    }
}

impl<T> fmt::Debug for Handle<T> {
    fn fmt(&self, f: &mut fmt::Formatter<'_>) -> fmt::Result {
        let has_returned = self.work.is_none();
        f.debug_struct("Handle")
            .field("has_returned", &has_returned)
            .finish_non_exhaustive()
    }
}

#[cfg(feature = "async")]
impl<T> Future for Handle<T> {
    type Output = Result<T, Error>;

    fn poll(mut self: Pin<&mut Self>, _: &mut Context<'_>) -> Poll<Result<T, Error>> {
        Poll::Ready(self.finish())
    }
}
