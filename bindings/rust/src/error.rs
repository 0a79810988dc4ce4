use crate::foreign::{BAD_CALL, NO_MEMORY, NO_ROOM, UNPRINTED};
use std::fmt;
use std::io::{self, ErrorKind};

/// Why a call was refused. The storage's refusals have the names of their replies (`docs/FORMATS.md`).
///
/// The first two texts of a `Blob` variant are the partition as it was given and the blob's name in lower-case hex.
///
/// ```
/// # use blobcrash::{Error, Store};
/// let store = Store::builder().open()?;
/// let (_blob, _) = store.open("p", b"b")?;
/// let error = store.open("p", b"b").unwrap_err();
/// assert_eq!(error, Error::BlobAlreadyOpen("p".to_owned(), "62".to_owned()));
/// assert_eq!(error.to_string(), "blob already open: p/62");
/// # Ok::<(), Error>(())
/// ```
#[derive(Clone, Debug, PartialEq, Eq)]
#[non_exhaustive]
pub enum Error {
    /// The end of a range, with the header, doesn't fit in 64 bits.
    OffsetOverflow,
    /// A read ends past the end of the blob.
    BlobInsufficientLength,
    /// The partition's name is empty, or has other characters than ASCII letters, digits, `-` and `_`.
    PartitionNameInvalid(String),
    /// A removal or a scan of a partition that doesn't exist.
    PartitionMissing(String),
    /// A removal of a name that doesn't exist; a sync or a SYNC write through a stale handle.
    BlobMissing(String, String),
    /// The name is open.
    BlobAlreadyOpen(String, String),
    /// The header isn't one that a creation writes; the third text is the reason.
    BlobCorrupt(String, String, String),
    /// The header's layout isn't accepted. The store accepts all.
    BlobLayoutMismatch {
        /// The first and the last accepted layout.
        expected: (String, String),
        /// The blob's layout.
        found: String,
    },
    /// The header's version isn't accepted.
    BlobVersionMismatch {
        /// The first and the last accepted version.
        expected: (u16, u16),
        /// The blob's version.
        found: u16,
    },
    /// No call of a store returns it. [`Pending`](crate::Pending) returns a failure that its caller gave it.
    Closed,
    /// As [`Error::Closed`].
    ReadFailed,
    /// As [`Error::Closed`].
    WriteFailed,
    /// A fault that a draw chose, in place of a device's I/O error.
    Injected,
    /// The store found no memory for the call. Nothing has changed except the generator.
    Memory,
    /// No number is left for a blob, a write or a started sync.
    GenerationsExhausted,
    /// Of [`files`](crate::files): the name is taken.
    Exists,
    /// Of files: no file or directory has this name.
    NotFound,
    /// Of files: the directory has names.
    NotEmpty,
    /// Of files: the call wants a file, and this is a directory.
    IsDirectory,
    /// Of files: the call wants a directory, and this is a file.
    NotDirectory,
    /// Of files: a name has more than 255 bytes.
    NameTooLong,
    /// Of files: a name is empty, `.` or `..`, or has a zero.
    InvalidName,
    /// Of files: the file has as many names as a file may have.
    TooManyLinks,
    /// Of files: a limit of bytes or of files is reached.
    NoSpace,
    /// Of files: a directory would be moved below itself.
    Loop,
    /// Of files: the recovery of the last crash failed. Crash again.
    Crashed,
    /// No open handle, or no unfinished sync, has this number.
    NoHandle,
    /// The range of versions is empty.
    EmptyRange,
    /// The handle is from before a crash, a reopen or the removal of its blob, or the file from before a crash, as the text says. No call
    /// was made.
    StaleHandle(&'static str),
    /// The power is off. No call was made, and none is until the store has crashed and reopened, or the files have crashed.
    PowerLoss,
    /// A rate needs random draws, and the store has neither a seed nor words. Nothing has changed.
    NeedsSeed,
    /// An argument can't be expressed in a call, as the text says. No call was made.
    Argument(String),
    /// The library found no memory: no call was made, or its reply can't be returned.
    OutOfMemory,
    /// This line isn't one of a script, or not allowed at this place. No call was made.
    BadLine(String),
    /// A reply that this crate doesn't know.
    Unknown(String),
}

/// A status, its error, its message, and the kind of I/O error that a file system would report.
type Refusal = (u32, Error, &'static str, ErrorKind);

/// The refusals without texts.
#[rustfmt::skip]
static REFUSALS: [Refusal; 22] = [
    (16, Error::OffsetOverflow, "offset overflow", ErrorKind::InvalidInput),
    (17, Error::BlobInsufficientLength, "blob insufficient length", ErrorKind::UnexpectedEof),
    (25, Error::Closed, "closed", ErrorKind::Other),
    (26, Error::ReadFailed, "read failed", ErrorKind::Other),
    (27, Error::WriteFailed, "write failed", ErrorKind::Other),
    (28, Error::Injected, "injected storage fault", ErrorKind::Other),
    (29, Error::Memory, "out of memory", ErrorKind::OutOfMemory),
    (30, Error::GenerationsExhausted, "generations exhausted", ErrorKind::Other),
    (31, Error::NoHandle, "no handle of this number", ErrorKind::Other),
    (32, Error::EmptyRange, "empty range of versions", ErrorKind::InvalidInput),
    (64, Error::Exists, "the name is taken", ErrorKind::AlreadyExists),
    (65, Error::NotFound, "no such file or directory", ErrorKind::NotFound),
    (66, Error::NotEmpty, "directory not empty", ErrorKind::DirectoryNotEmpty),
    (67, Error::IsDirectory, "is a directory", ErrorKind::IsADirectory),
    (68, Error::NotDirectory, "not a directory", ErrorKind::NotADirectory),
    (69, Error::NameTooLong, "a name has more than 255 bytes", ErrorKind::InvalidInput),
    (70, Error::InvalidName, "invalid name", ErrorKind::InvalidInput),
    (71, Error::TooManyLinks, "too many links", ErrorKind::TooManyLinks),
    (72, Error::StaleHandle("the file is from before a crash"), "stale handle", ErrorKind::StaleNetworkFileHandle),
    (73, Error::NoSpace, "no space left", ErrorKind::StorageFull),
    (74, Error::Loop, "a directory would be moved below itself", ErrorKind::InvalidInput),
    (75, Error::Crashed, "the recovery of the last crash failed: crash again", ErrorKind::Other),
];

impl Error {
    /// The error of a status that isn't `DONE`. `reply` is the line of the reply, which has the texts of some refusals.
    #[cold]
    pub(crate) fn of(status: u32, reply: &str) -> Error {
        if let Some((_, error, ..)) = REFUSALS.iter().find(|row| row.0 == status) {
            return error.clone();
        }
        Error::with_texts(status, reply)
            .unwrap_or_else(|| Error::Unknown(format!("status {status} {reply}")))
    }

    pub(crate) fn argument(text: &str) -> Error {
        Error::Argument(text.to_owned())
    }

    /// The status of a refusal without texts.
    pub(crate) fn status(&self) -> Option<u32> {
        self.refusal().map(|row| row.0)
    }

    fn refusal(&self) -> Option<&'static Refusal> {
        REFUSALS.iter().find(|row| row.1 == *self)
    }

    fn with_texts(status: u32, reply: &str) -> Option<Error> {
        let mut fields = reply.splitn(5, ' ').skip(2);
        let mut field = || fields.next().map(str::to_owned);
        // An empty text is printed as `-`, which is no hex and a partition name that isn't refused.
        let or_empty = |text: String| if text == "-" { String::new() } else { text };
        Some(match status {
            BAD_CALL => Error::argument("a number isn't allowed in this call"),
            NO_MEMORY | NO_ROOM | UNPRINTED => Error::OutOfMemory,
            18 => Error::PartitionNameInvalid(or_empty(field()?)),
            19 => Error::PartitionMissing(field()?),
            20 => Error::BlobMissing(field()?, or_empty(field()?)),
            21 => Error::BlobAlreadyOpen(field()?, or_empty(field()?)),
            22 => Error::BlobCorrupt(field()?, or_empty(field()?), field()?),
            23 => Error::BlobLayoutMismatch {
                expected: (field()?, field()?),
                found: field()?,
            },
            24 => Error::BlobVersionMismatch {
                expected: (field()?.parse().ok()?, field()?.parse().ok()?),
                found: field()?.parse().ok()?,
            },
            _ => return None,
        })
    }
}

impl fmt::Display for Error {
    fn fmt(&self, f: &mut fmt::Formatter<'_>) -> fmt::Result {
        match self {
            Error::PartitionNameInvalid(partition) => {
                write!(f, "partition name invalid: {partition}")
            }
            Error::PartitionMissing(partition) => write!(f, "partition missing: {partition}"),
            Error::BlobMissing(partition, name) => write!(f, "blob missing: {partition}/{name}"),
            Error::BlobAlreadyOpen(partition, name) => {
                write!(f, "blob already open: {partition}/{name}")
            }
            Error::BlobCorrupt(partition, name, reason) => {
                write!(f, "blob corrupt: {partition}/{name} reason: {reason}")
            }
            Error::BlobLayoutMismatch {
                expected: (first, last),
                found,
            } => write!(
                f,
                "blob layout mismatch: expected {first}..={last}, found {found}"
            ),
            Error::BlobVersionMismatch {
                expected: (first, last),
                found,
            } => write!(
                f,
                "blob version mismatch: expected {first}..={last}, found {found}"
            ),
            Error::OutOfMemory => f.write_str("out of memory"),
            Error::StaleHandle(why) => write!(f, "stale handle: {why}"),
            Error::PowerLoss => f.write_str(
                "the power is off: let the store crash and reopen, by `restart` or `recover`",
            ),
            Error::NeedsSeed => f.write_str(
                "a rate needs random draws: give the store `.seed(7)`, or the words of its generator, `.words(&[..])`. \
                 Without them every draw is true, so that nothing would be lost; if you want that, say `.words(&[0])`",
            ),
            Error::Argument(text) => f.write_str(text),
            Error::BadLine(line) => write!(f, "bad line: {line}"),
            Error::Unknown(line) => write!(f, "unknown reply: {line}"),
            without_texts => f.write_str(without_texts.refusal().map_or("", |row| row.2)),
        }
    }
}

impl std::error::Error for Error {}

/// An I/O error of the kind that a file system would report; an injected fault is of the kind `Other`.
///
/// ```
/// fn first_byte(blob: &blobcrash::Blob) -> std::io::Result<u8> {
///     Ok(blob.read_at(0, 1)?[0])
/// }
///
/// let store = blobcrash::Store::builder().open().unwrap();
/// let (blob, _) = store.open("p", b"b").unwrap();
/// let error = first_byte(&blob).unwrap_err();
/// assert_eq!(error.kind(), std::io::ErrorKind::UnexpectedEof);
/// ```
impl From<Error> for io::Error {
    fn from(error: Error) -> io::Error {
        let kind = match &error {
            Error::PartitionMissing(_) | Error::BlobMissing(..) => ErrorKind::NotFound,
            Error::PartitionNameInvalid(_)
            | Error::NeedsSeed
            | Error::Argument(_)
            | Error::BadLine(_) => ErrorKind::InvalidInput,
            Error::BlobCorrupt(..)
            | Error::BlobLayoutMismatch { .. }
            | Error::BlobVersionMismatch { .. } => ErrorKind::InvalidData,
            Error::BlobAlreadyOpen(..) => ErrorKind::ResourceBusy,
            Error::OutOfMemory => ErrorKind::OutOfMemory,
            Error::StaleHandle(_) => ErrorKind::StaleNetworkFileHandle,
            other => other.refusal().map_or(ErrorKind::Other, |row| row.3),
        };
        io::Error::new(kind, error)
    }
}

#[cfg(test)]
mod tests {
    use super::{Error, REFUSALS};
    use crate::foreign::tests::{enumerators, header, upper};

    #[test]
    fn replies_are_parsed() {
        let text = str::to_owned;
        let parses = |name: &str, line: &str, error: Error| {
            let status = header()[format!("E_{name}").as_str()];
            assert_eq!(Error::of(status, line), error);
        };
        parses("INJECTED", "error Injected", Error::Injected);
        let already = Error::BlobAlreadyOpen(text("partition"), text("626c6f62"));
        let line = "error BlobAlreadyOpen partition 626c6f62";
        parses("BLOB_ALREADY_OPEN", line, already);
        let (expected, found) = ((3, 7), 10);
        let version = Error::BlobVersionMismatch { expected, found };
        let line = "error BlobVersionMismatch 3 7 10";
        parses("BLOB_VERSION_MISMATCH", line, version);
        let reason = text("invalid header checksum");
        let corrupt = Error::BlobCorrupt(text("image"), text("626c6f62"), reason);
        let line = "error BlobCorrupt image 626c6f62 invalid header checksum";
        parses("BLOB_CORRUPT", line, corrupt);
        let missing = Error::BlobMissing(text("p"), text(""));
        parses("BLOB_MISSING", "error BlobMissing p -", missing);
        let missing = Error::PartitionMissing(text("-"));
        parses("PARTITION_MISSING", "error PartitionMissing -", missing);
        let invalid = Error::PartitionNameInvalid(text(""));
        parses(
            "PARTITION_NAME_INVALID",
            "error PartitionNameInvalid -",
            invalid,
        );
        let unknown = Error::Unknown(text("status 15 ok"));
        assert_eq!(Error::of(15, "ok"), unknown);
    }

    #[test]
    fn refusals_are_those_of_the_headers() {
        let files = enumerators(include_str!("../../c/blobcrash_files.h"));
        for (status, error, ..) in &REFUSALS {
            let text = match error {
                Error::StaleHandle(_) => "Stale".to_owned(),
                other => format!("{other:?}"),
            };
            let name = upper(&text);
            let found = header()
                .get(format!("E_{name}").as_str())
                .or(files.get(format!("F_{name}").as_str()))
                .copied();
            assert_eq!(found, Some(*status), "{name}");
        }
        // None is left out: seven have texts.
        let is_refusal = |name: &str| name.starts_with("E_");
        let of_stores = header().keys().filter(|name| is_refusal(name)).count();
        let of_files = files.values().filter(|number| **number >= 64).count();
        assert_eq!(REFUSALS.len() + 7, of_stores + of_files);
    }
}
