//! Buffers with the names of the ported crate. Each owns its bytes.
use std::ops::{Deref, DerefMut};

/// One piece of bytes to write.
///
/// ```
/// use blobcrash::storage::IoBuf;
///
/// assert_eq!(IoBuf::from(b"abc"), b"abc");
/// ```
#[derive(Clone, Debug, Default, Eq)]
pub struct IoBuf(Vec<u8>);

/// A buffer that a read fills.
///
/// ```
/// use blobcrash::storage::IoBufMut;
///
/// let buffer = IoBufMut::with_capacity(4);
/// assert!(buffer.capacity() >= 4 && buffer.is_empty());
/// assert_eq!(IoBufMut::from(vec![1, 2]).freeze(), [1, 2]);
/// ```
#[derive(Clone, Debug, Default, Eq)]
pub struct IoBufMut(Vec<u8>);

/// Bytes to write, in pieces.
///
/// ```
/// use blobcrash::storage::{IoBuf, IoBufs};
///
/// let mut bytes = IoBufs::from(b"ab");
/// bytes.append(IoBuf::from(b"c"));
/// assert!(bytes.remaining() == 3 && !bytes.is_empty());
/// assert_eq!(bytes.coalesce(), b"abc");
/// assert!(IoBufs::from(b"").is_empty());
/// ```
#[derive(Clone, Debug, Default)]
pub struct IoBufs(Vec<IoBuf>);

/// The bytes that a read returns.
///
/// ```
/// use blobcrash::storage::IoBufsMut;
///
/// let bytes = IoBufsMut::from(b"abc".to_vec());
/// assert!(bytes.len() == 3 && !bytes.is_empty() && bytes.capacity() >= 3);
/// assert_eq!(bytes.coalesce(), b"abc");
/// assert!(IoBufsMut::default().is_empty());
/// ```
#[derive(Clone, Debug, Default)]
pub struct IoBufsMut(IoBufMut);

/// What both kinds of a buffer have.
macro_rules! bytes {
    ($name:ident) => {
        impl Deref for $name {
            type Target = [u8];

            fn deref(&self) -> &[u8] {
                &self.0
            }
        }

        impl AsRef<[u8]> for $name {
            fn as_ref(&self) -> &[u8] {
                &self.0
            }
        }

        impl<T: AsRef<[u8]> + ?Sized> PartialEq<T> for $name {
            fn eq(&self, other: &T) -> bool {
                self.0 == other.as_ref()
            }
        }

        impl From<Vec<u8>> for $name {
            fn from(bytes: Vec<u8>) -> $name {
                $name(bytes)
            }
        }

        impl From<$name> for Vec<u8> {
            fn from(buffer: $name) -> Vec<u8> {
                buffer.0
            }
        }
    };
}

bytes!(IoBuf);
bytes!(IoBufMut);

impl From<&[u8]> for IoBuf {
    fn from(bytes: &[u8]) -> IoBuf {
        IoBuf(bytes.to_vec())
    }
}

impl<const N: usize> From<&[u8; N]> for IoBuf {
    fn from(bytes: &[u8; N]) -> IoBuf {
        IoBuf(bytes.to_vec())
    }
}

impl DerefMut for IoBufMut {
    fn deref_mut(&mut self) -> &mut [u8] {
        &mut self.0
    }
}

impl IoBufMut {
    /// Returns an empty buffer that can hold this number of bytes.
    #[must_use]
    pub fn with_capacity(capacity: usize) -> IoBufMut {
        IoBufMut(Vec::with_capacity(capacity))
    }

    /// Returns how many bytes the buffer can hold.
    #[must_use]
    pub fn capacity(&self) -> usize {
        self.0.capacity()
    }

    /// Returns the bytes as a piece to write.
    #[must_use]
    pub fn freeze(self) -> IoBuf {
        IoBuf(self.0)
    }
}

impl<T: Into<IoBuf>> From<T> for IoBufs {
    fn from(piece: T) -> IoBufs {
        IoBufs(vec![piece.into()])
    }
}

impl FromIterator<IoBuf> for IoBufs {
    fn from_iter<I: IntoIterator<Item = IoBuf>>(pieces: I) -> IoBufs {
        IoBufs(pieces.into_iter().collect())
    }
}

impl IoBufs {
    /// Adds a piece at the end.
    pub fn append(&mut self, piece: IoBuf) {
        self.0.push(piece);
    }

    /// Returns how many bytes there are.
    #[must_use]
    pub fn remaining(&self) -> usize {
        self.0.iter().map(|piece| piece.len()).sum()
    }

    /// Returns whether there are no bytes.
    #[must_use]
    pub fn is_empty(&self) -> bool {
        self.0.iter().all(|piece| piece.is_empty())
    }

    /// Returns the bytes in one piece. A single piece isn't copied.
    #[must_use]
    pub fn coalesce(mut self) -> IoBuf {
        if self.0.len() == 1 {
            return self.0.remove(0);
        }
        let pieces: Vec<&[u8]> = self.0.iter().map(|piece| &**piece).collect();
        IoBuf(pieces.concat())
    }
}

impl<T: Into<IoBufMut>> From<T> for IoBufsMut {
    fn from(buffer: T) -> IoBufsMut {
        IoBufsMut(buffer.into())
    }
}

impl IoBufsMut {
    /// Returns how many bytes there are.
    #[must_use]
    pub fn len(&self) -> usize {
        self.0.len()
    }

    /// Returns whether there are no bytes.
    #[must_use]
    pub fn is_empty(&self) -> bool {
        self.0.is_empty()
    }

    /// Returns how many bytes the buffer can hold.
    #[must_use]
    pub fn capacity(&self) -> usize {
        self.0.capacity()
    }

    /// Returns the bytes in one piece.
    #[must_use]
    pub fn coalesce(self) -> IoBufMut {
        self.0
    }

    /// Returns the capacity for a read of this length, with as many bytes in it. The read fills them.
    ///
    /// # Panics
    /// If the capacity is less.
    pub(crate) fn with_len(self, len: usize) -> IoBufMut {
        let capacity = self.capacity();
        assert!(
            capacity >= len,
            "a buffer with a capacity of {capacity} bytes can't hold {len}"
        );
        let mut bytes = self.0.0;
        bytes.resize(len, 0);
        IoBufMut(bytes)
    }
}
