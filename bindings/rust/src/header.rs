//! Header regions of blobs: `docs/FORMATS.md`.
//!
//! ```
//! use blobcrash::header::{self, Layout};
//! use blobcrash::storage::BlobVersion;
//!
//! let versions = BlobVersion::new(0)..=BlobVersion::new(7);
//! let (mut raw, version) = header::create(&Layout::ALL, &versions);
//! raw.extend(b"data");
//! let resolved = header::resolve(&raw, raw.len() as u64, &Layout::ALL, &versions, "p", b"b");
//! assert_eq!(resolved, Ok(Some((4, version, 4096))));
//! ```
use crate::Error;
use crate::foreign::{self, Accepts, ParsedHeader};
use crate::library;
use crate::script::hex;
use crate::storage::BlobVersion;
use std::fmt;
use std::ops::RangeInclusive;

/// How many bytes of a blob a header is resolved from.
const REGION: usize = 4096;

/// The layout of a header region.
///
/// ```
/// use blobcrash::header::Layout;
///
/// assert_eq!(Layout::V1.to_string(), "V1");
/// assert!(Layout::ALL.contains(&Layout::V0));
/// ```
#[derive(Clone, Copy, Debug, PartialEq, Eq, PartialOrd, Ord, Hash)]
pub enum Layout {
    /// 8 bytes without a checksum.
    V0,
    /// 4096 bytes with a checksum of the first 8.
    V1,
}

impl Layout {
    /// All layouts.
    ///
    /// ```
    /// # use blobcrash::header::Layout;
    /// assert_eq!(Layout::ALL, Layout::V0..=Layout::V1);
    /// ```
    pub const ALL: RangeInclusive<Layout> = Layout::V0..=Layout::V1;

    /// Returns the number that a header has at its bytes 4 and 5.
    ///
    /// ```
    /// # use blobcrash::header::Layout;
    /// assert_eq!(Layout::V1.layout_version(), 1);
    /// ```
    #[must_use]
    pub const fn layout_version(self) -> u16 {
        self as u16
    }

    /// Returns the first four bytes of a header.
    ///
    /// ```
    /// # use blobcrash::header::Layout;
    /// assert_eq!(&Layout::V0.magic(), b"CWIC");
    /// ```
    #[must_use]
    pub const fn magic(self) -> [u8; 4] {
        match self {
            Layout::V0 => *b"CWIC",
            Layout::V1 => *b"CWIK",
        }
    }

    /// Returns the layout with this magic, if there is one.
    ///
    /// ```
    /// # use blobcrash::header::Layout;
    /// assert_eq!(Layout::from_magic(b"CWIK"), Some(Layout::V1));
    /// assert_eq!(Layout::from_magic(b"XXXX"), None);
    /// ```
    #[must_use]
    pub const fn from_magic(magic: &[u8; 4]) -> Option<Layout> {
        match magic {
            b"CWIC" => Some(Layout::V0),
            b"CWIK" => Some(Layout::V1),
            _ => None,
        }
    }

    /// Returns the length of a header region in bytes, which is the offset of the blob's own bytes.
    ///
    /// ```
    /// # use blobcrash::header::Layout;
    /// assert_eq!((Layout::V0.data_offset(), Layout::V1.data_offset()), (8, 4096));
    /// ```
    #[must_use]
    pub const fn data_offset(self) -> u64 {
        match self {
            Layout::V0 => 8,
            Layout::V1 => REGION as u64,
        }
    }

    /// Returns whether these bytes of a whole blob may be what an interrupted creation in this layout left: the first bytes of a
    /// region of any version, and then zeros. A V0 header has no checksum, so no bytes of one are. The library tests it.
    ///
    /// ```
    /// # use blobcrash::header::Layout;
    /// assert!(Layout::V1.interrupted_creation(b"CWIK\0\x01"));
    /// assert!(!Layout::V0.interrupted_creation(b"CWIC"));
    /// ```
    #[must_use]
    pub fn interrupted_creation(self, raw: &[u8]) -> bool {
        library::is_interrupted_creation(self.layout_version(), raw)
    }
}

impl fmt::Display for Layout {
    fn fmt(&self, f: &mut fmt::Formatter<'_>) -> fmt::Result {
        fmt::Debug::fmt(self, f)
    }
}

/// Why a header region is refused.
///
/// ```
/// use blobcrash::header::{self, HeaderError, Layout};
/// use blobcrash::storage::BlobVersion;
///
/// let any = BlobVersion::new(0)..=BlobVersion::new(u16::MAX);
/// let error = header::parse(b"CWIK\0\x01\0\0", 8, &Layout::ALL, &any).unwrap_err();
/// assert_eq!(error, HeaderError::Truncated { required_len: 12, raw_len: 8 });
/// ```
#[derive(Clone, Debug, PartialEq, Eq)]
pub enum HeaderError {
    /// The first four bytes are no layout's magic.
    InvalidMagic {
        /// These bytes.
        found: [u8; 4],
    },
    /// The layout version isn't the one that goes with the magic.
    UnsupportedLayoutVersion {
        /// The layout version of the magic.
        expected: u16,
        /// That of the header.
        found: u16,
    },
    /// The layout isn't accepted.
    LayoutMismatch {
        /// The accepted layouts.
        expected: RangeInclusive<Layout>,
        /// The layout of the header.
        found: Layout,
    },
    /// The version isn't accepted.
    VersionMismatch {
        /// The accepted versions.
        expected: RangeInclusive<BlobVersion>,
        /// The version of the header.
        found: BlobVersion,
    },
    /// Bytes 8 to 11 aren't the checksum of the eight before them.
    InvalidChecksum,
    /// A byte between the checksum and the data offset isn't zero.
    InvalidPadding,
    /// The blob ends before its header does.
    Truncated {
        /// The length that the header needs, in bytes.
        required_len: u64,
        /// The length of the blob, in bytes.
        raw_len: u64,
    },
}

impl fmt::Display for HeaderError {
    fn fmt(&self, f: &mut fmt::Formatter<'_>) -> fmt::Result {
        match self {
            HeaderError::InvalidMagic { found } => write!(f, "invalid magic: found {found:?}"),
            HeaderError::UnsupportedLayoutVersion { expected, found } => write!(
                f,
                "unsupported layout version: expected {expected}, found {found}"
            ),
            HeaderError::LayoutMismatch { expected, found } => write!(
                f,
                "layout mismatch: expected {}..={}, found {found}",
                expected.start(),
                expected.end()
            ),
            HeaderError::VersionMismatch { expected, found } => write!(
                f,
                "version mismatch: expected {}..={}, found {found}",
                expected.start(),
                expected.end()
            ),
            HeaderError::InvalidChecksum => f.write_str("invalid header checksum"),
            HeaderError::InvalidPadding => f.write_str("invalid header padding"),
            HeaderError::Truncated {
                required_len,
                raw_len,
            } => write!(
                f,
                "truncated header: required length {required_len}, raw length {raw_len}"
            ),
        }
    }
}

impl std::error::Error for HeaderError {}

/// Parses a blob's header. `raw` has the blob's first `min(raw_len, 4096)` bytes at least, and `raw_len` is the length of the whole
/// blob. The library parses it.
///
/// Returns the logical size, the version and the data offset, or the first test that the header fails, in the order of the errors:
/// the layout and the version come last.
///
/// # Panics
/// If `raw` has fewer bytes or more than the blob, or the blob is shorter than 8 bytes.
///
/// ```
/// # use blobcrash::{header::{self, Layout}, storage::BlobVersion};
/// let any = BlobVersion::new(0)..=BlobVersion::new(u16::MAX);
/// let parsed = header::parse(b"CWIC\0\0\0\x05abc", 11, &Layout::ALL, &any);
/// assert_eq!(parsed, Ok((3, BlobVersion::new(5), 8)));
/// ```
pub fn parse(
    raw: &[u8],
    raw_len: u64,
    layouts: &RangeInclusive<Layout>,
    versions: &RangeInclusive<BlobVersion>,
) -> Result<(u64, BlobVersion, u64), HeaderError> {
    let parsed = library::parse_header(raw, raw_len, &accepts(layouts, versions));
    let parsed = parsed.expect("`raw` has the header region");
    found(&parsed, raw, raw_len, layouts, versions)
}

fn accepts(layouts: &RangeInclusive<Layout>, versions: &RangeInclusive<BlobVersion>) -> Accepts {
    Accepts {
        oldest: layouts.start().layout_version(),
        newest: layouts.end().layout_version(),
        least: versions.start().get(),
        greatest: versions.end().get(),
    }
}

/// Returns what the library found in a header.
fn found(
    parsed: &ParsedHeader,
    raw: &[u8],
    raw_len: u64,
    layouts: &RangeInclusive<Layout>,
    versions: &RangeInclusive<BlobVersion>,
) -> Result<(u64, BlobVersion, u64), HeaderError> {
    let number = parsed.version as u16;
    let found = [raw[0], raw[1], raw[2], raw[3]];
    Err(match parsed.status {
        foreign::DONE => return Ok((parsed.size, BlobVersion::new(number), parsed.data_offset)),
        foreign::INVALID_MAGIC => HeaderError::InvalidMagic { found },
        foreign::UNSUPPORTED_LAYOUT_VERSION => HeaderError::UnsupportedLayoutVersion {
            expected: u16::from(found == Layout::V1.magic()),
            found: number,
        },
        foreign::LAYOUT_MISMATCH => HeaderError::LayoutMismatch {
            expected: layouts.clone(),
            found: if number == 0 { Layout::V0 } else { Layout::V1 },
        },
        foreign::VERSION_MISMATCH => HeaderError::VersionMismatch {
            expected: versions.clone(),
            found: BlobVersion::new(number),
        },
        foreign::INVALID_CHECKSUM => HeaderError::InvalidChecksum,
        foreign::INVALID_PADDING => HeaderError::InvalidPadding,
        _ => HeaderError::Truncated {
            required_len: parsed.size,
            raw_len,
        },
    })
}

/// Returns the header region of a new blob with the greatest of these layouts and versions, and the version.
///
/// # Panics
/// If a range is empty.
///
/// ```
/// # use blobcrash::header::{self, Layout};
/// # use blobcrash::storage::BlobVersion;
/// let versions = BlobVersion::new(1)..=BlobVersion::new(2);
/// let (region, version) = header::create(&(Layout::V0..=Layout::V0), &versions);
/// assert_eq!(region, b"CWIC\0\0\0\x02");
/// assert_eq!(version.get(), 2);
/// ```
#[must_use]
pub fn create(
    layouts: &RangeInclusive<Layout>,
    versions: &RangeInclusive<BlobVersion>,
) -> (Vec<u8>, BlobVersion) {
    assert!(!layouts.is_empty(), "blob layouts must be non-empty");
    assert!(!versions.is_empty(), "blob versions must be non-empty");
    let (layout, version) = (*layouts.end(), *versions.end());
    let region = library::create_header(layout.layout_version(), version.get());
    (region.expect("there is memory for a header"), version)
}

/// Resolves a blob's header. `raw` has the blob's first `min(raw_len, 4096)` bytes at least, and `raw_len` is the length of the whole
/// blob. The library resolves it.
///
/// Returns the logical size, the version and the data offset, or `None` if an open would create the blob again: it is shorter than any
/// header, or has what an interrupted creation leaves.
///
/// Errors:
/// - `BlobCorrupt` with the caller's partition, the name in hex and the reason.
/// - `BlobLayoutMismatch`, `BlobVersionMismatch` if the header is valid and not accepted. The layout is checked first.
/// - `OutOfMemory`.
///
/// # Panics
/// If `raw` has fewer bytes.
///
/// ```
/// # use blobcrash::{Error, header::{self, Layout}, storage::BlobVersion};
/// let any = BlobVersion::new(0)..=BlobVersion::new(u16::MAX);
/// let resolve = |raw: &[u8]| header::resolve(raw, raw.len() as u64, &Layout::ALL, &any, "p", b"b");
/// assert_eq!(resolve(b"CWIC\0\0\0\x05abc"), Ok(Some((3, BlobVersion::new(5), 8))));
/// assert_eq!(resolve(b"CWI"), Ok(None));
/// assert!(matches!(resolve(b"not a header"), Err(Error::BlobCorrupt(..))));
/// ```
pub fn resolve(
    raw: &[u8],
    raw_len: u64,
    layouts: &RangeInclusive<Layout>,
    versions: &RangeInclusive<BlobVersion>,
    partition: &str,
    name: &[u8],
) -> Result<Option<(u64, BlobVersion, u64)>, Error> {
    let prefix = raw.get(..raw_len.min(REGION as u64) as usize);
    let raw = prefix.expect("`raw` has the header region");
    let parsed = library::resolve_header(raw, raw_len, &accepts(layouts, versions));
    let parsed = parsed.expect("these are the layouts of the library");
    match parsed.status {
        foreign::TO_CREATE => return Ok(None),
        foreign::NO_MEMORY => return Err(Error::OutOfMemory),
        _ => {}
    }
    let resolved = found(&parsed, raw, raw_len, layouts, versions);
    resolved.map(Some).map_err(|error| match error {
        HeaderError::LayoutMismatch { expected, found } => Error::BlobLayoutMismatch {
            expected: (expected.start().to_string(), expected.end().to_string()),
            found: found.to_string(),
        },
        HeaderError::VersionMismatch { expected, found } => Error::BlobVersionMismatch {
            expected: (expected.start().get(), expected.end().get()),
            found: found.get(),
        },
        corrupt => Error::BlobCorrupt(partition.to_owned(), hex(name), corrupt.to_string()),
    })
}
