//! The tests of header regions.
use crate::{blob_bytes, versions};
use blobcrash::Error;
use blobcrash::header::{HeaderError, Layout, create, parse, resolve};
use blobcrash::storage::BlobVersion;
use std::ops::RangeInclusive;

type Resolved = Result<Option<(u64, BlobVersion, u64)>, Error>;

const V0: RangeInclusive<Layout> = Layout::V0..=Layout::V0;
const V1: RangeInclusive<Layout> = Layout::V1..=Layout::V1;

fn resolved(raw: &[u8], layouts: &RangeInclusive<Layout>, first: u16, last: u16) -> Resolved {
    let accepted = versions(first, last);
    resolve(
        raw,
        raw.len() as u64,
        layouts,
        &accepted,
        "partition",
        b"name",
    )
}

fn valid(size: u64, version: u16, layout: Layout) -> Resolved {
    Ok(Some((
        size,
        BlobVersion::new(version),
        layout.data_offset(),
    )))
}

fn corrupt(reason: &str) -> Resolved {
    let texts = ["partition", "6e616d65", reason].map(str::to_owned);
    let [partition, name, reason] = texts;
    Err(Error::BlobCorrupt(partition, name, reason))
}

fn layout_mismatch(expected: Layout, found: Layout) -> Resolved {
    let expected = (expected.to_string(), expected.to_string());
    let found = found.to_string();
    Err(Error::BlobLayoutMismatch { expected, found })
}

fn version_mismatch(first: u16, last: u16, found: u16) -> Resolved {
    let expected = (first, last);
    Err(Error::BlobVersionMismatch { expected, found })
}

/// A changed copy.
fn with(raw: &[u8], change: impl FnOnce(&mut Vec<u8>)) -> Vec<u8> {
    let mut changed = raw.to_vec();
    change(&mut changed);
    changed
}

#[test]
fn test_header_create_v1() {
    let (region, version) = create(&Layout::ALL, &versions(0, 7));
    assert_eq!(version, BlobVersion::new(7));
    assert_eq!(region.len(), 4096);
    assert!(region[12..].iter().all(|byte| *byte == 0));
    assert_eq!(
        resolved(&region, &Layout::ALL, 0, 7),
        valid(0, 7, Layout::V1)
    );
}

#[test]
#[should_panic(expected = "blob versions must be non-empty")]
fn test_header_create_empty_versions() {
    let _ = create(&Layout::ALL, &versions(1, 0));
}

#[test]
fn test_header_create_v0() {
    let (region, version) = create(&V0, &versions(0, 7));
    assert_eq!(version, BlobVersion::new(7));
    assert_eq!(region, [b'C', b'W', b'I', b'C', 0, 0, 0, 7]);
    assert_eq!(resolved(&region, &V0, 0, 7), valid(0, 7, Layout::V0));
}

#[test]
fn test_header_v1_fixture_bytes() {
    let (region, _) = create(&V1, &versions(3, 3));
    assert_eq!(region[..8], [b'C', b'W', b'I', b'K', 0, 1, 0, 3]);
    // The CRC32C of these eight bytes, from a table.
    assert_eq!(region[8..12], [0x3b, 0x43, 0x2b, 0x28]);
}

#[test]
fn test_header_extension_rejects_bad_crc() {
    let region = with(&blob_bytes(Layout::V1, 0, b""), |raw| raw[11] ^= 1);
    let found = resolved(&region, &Layout::ALL, 0, 0);
    assert_eq!(found, corrupt("invalid header checksum"));
}

#[test]
fn test_header_extension_rejects_truncated_region() {
    let (region, _) = create(&V1, &versions(0, 0));
    let raw_len = Layout::V1.data_offset() - 1;
    let raw = &region[..raw_len as usize];
    let truncated = HeaderError::Truncated {
        required_len: 4096,
        raw_len: 4095,
    };
    assert_eq!(
        parse(raw, raw_len, &Layout::ALL, &versions(0, 0)),
        Err(truncated)
    );
}

#[test]
fn test_header_v1_rejects_nonzero_padding() {
    let region = with(&blob_bytes(Layout::V1, 0, b""), |raw| raw[12] = 1);
    let found = resolved(&region, &Layout::ALL, 0, 0);
    assert_eq!(found, corrupt("invalid header padding"));
}

#[test]
fn test_header_validate_success() {
    let raw = blob_bytes(Layout::V0, 5, b"");
    assert_eq!(resolved(&raw, &Layout::ALL, 3, 7), valid(0, 5, Layout::V0));
    assert_eq!(resolved(&raw, &Layout::ALL, 5, 5), valid(0, 5, Layout::V0));
}

#[test]
fn test_header_layout_restriction() {
    let v0 = blob_bytes(Layout::V0, 0, b"payload");
    let v1 = blob_bytes(Layout::V1, 0, b"payload");
    assert_eq!(
        resolved(&v0, &V1, 0, 0),
        layout_mismatch(Layout::V1, Layout::V0)
    );
    assert_eq!(
        resolved(&v1, &V0, 0, 0),
        layout_mismatch(Layout::V0, Layout::V1)
    );
    // The layout is reported if the version isn't accepted either.
    let outside = blob_bytes(Layout::V0, 5, b"payload");
    assert_eq!(
        resolved(&outside, &V1, 0, 0),
        layout_mismatch(Layout::V1, Layout::V0)
    );
    // A malformed header of an excluded layout stays corrupt.
    let malformed = with(&v1, |raw| raw[12] = 1);
    assert_eq!(
        resolved(&malformed, &V0, 0, 0),
        corrupt("invalid header padding")
    );
}

#[test]
fn test_header_validate_magic_mismatch() {
    let raw = with(&blob_bytes(Layout::V0, 5, b""), |raw| {
        raw[..4].copy_from_slice(b"XXXX")
    });
    let found = resolved(&raw, &Layout::ALL, 0, u16::MAX);
    assert_eq!(found, corrupt("invalid magic: found [88, 88, 88, 88]"));
}

#[test]
fn test_header_validate_layout_version_mismatch() {
    let raw = with(&blob_bytes(Layout::V0, 5, b""), |raw| raw[5] = 99);
    let found = resolved(&raw, &Layout::ALL, 0, u16::MAX);
    assert_eq!(
        found,
        corrupt("unsupported layout version: expected 0, found 99")
    );
}

#[test]
fn test_header_error_messages() {
    let v1 = blob_bytes(Layout::V1, 5, b"");
    let torn = with(&v1[..100], |raw| raw[50] = 1);
    for (raw, reason) in [
        (b"XXXXXXXX".to_vec(), "invalid magic"),
        (with(&v1, |raw| raw[5] = 0), "unsupported layout version"),
        (with(&v1, |raw| raw[11] ^= 1), "invalid header checksum"),
        (with(&v1, |raw| raw[12] = 1), "invalid header padding"),
        (
            torn,
            "truncated header: required length 4096, raw length 100",
        ),
    ] {
        match resolved(&raw, &Layout::ALL, 0, u16::MAX) {
            Err(Error::BlobCorrupt(partition, _, found)) => {
                assert_eq!(partition, "partition");
                assert!(found.contains(reason), "{found}");
            }
            other => panic!("{other:?}"),
        }
    }
    let tenth = blob_bytes(Layout::V0, 10, b"");
    assert_eq!(
        resolved(&tenth, &Layout::ALL, 3, 7),
        version_mismatch(3, 7, 10)
    );
    assert_eq!(
        resolved(&tenth, &V1, 3, 7),
        layout_mismatch(Layout::V1, Layout::V0)
    );
}

/// Whether an open creates a torn blob again, for each error that its header alone would be.
#[test]
fn test_header_error_torn_creation_candidates() {
    let v1 = blob_bytes(Layout::V1, 1, b"");
    let creates = |raw: &[u8]| resolved(raw, &Layout::ALL, 0, 0) == Ok(None);
    let cut = |len| with(&v1, |raw| raw[len..].fill(0));
    // The magic, the layout version and the checksum weren't written; the region isn't complete.
    assert!(creates(&cut(0)) && creates(&cut(4)) && creates(&cut(8)));
    assert!(creates(&v1[..100]));
    // Padding, and what the caller doesn't accept.
    assert!(!creates(&with(&v1, |raw| raw[12] = 1)));
    assert!(!creates(&v1));
    assert_ne!(resolved(&v1, &V0, 0, 1), Ok(None));
}

#[test]
fn test_header_magic_zero_subset_is_invalid() {
    for layout in [Layout::V0, Layout::V1] {
        for place in 0..4 {
            let mut magic = layout.magic();
            magic[place] = 0;
            assert_eq!(Layout::from_magic(&magic), None);
        }
    }
}

#[test]
fn test_header_torn_v1_does_not_parse_as_v0() {
    let raw = [b'C', b'W', b'I', b'K', 0, 0, 0, 5];
    let found = resolved(&raw, &Layout::ALL, 0, u16::MAX);
    assert_eq!(
        found,
        corrupt("unsupported layout version: expected 1, found 0")
    );
}

#[test]
fn test_header_v0_blob_version_out_of_range() {
    let raw = blob_bytes(Layout::V0, 10, b"");
    assert_eq!(
        resolved(&raw, &Layout::ALL, 3, 7),
        version_mismatch(3, 7, 10)
    );
}

#[test]
fn test_header_v1_blob_version_checked_after_crc() {
    let raw = blob_bytes(Layout::V1, 10, b"");
    assert_eq!(
        resolved(&raw, &Layout::ALL, 3, 7),
        version_mismatch(3, 7, 10)
    );
    let torn = with(&raw, |raw| raw[7] = 0);
    let found = resolved(&torn, &Layout::ALL, 3, 7);
    assert_eq!(found, corrupt("invalid header checksum"));
}

#[test]
fn test_header_interrupted_v1_creation_accepts_torn_states() {
    let region = blob_bytes(Layout::V1, 5, b"");
    let persisted = |written: usize| with(&region, |raw| raw[written..].fill(0));
    let rotted = with(&blob_bytes(Layout::V0, 0, &[0; 100]), |raw| raw[3] = 0);
    for (state, raw) in [
        ("only the size", persisted(0)),
        ("shorter than any header", vec![0; 3]),
        ("a prefix of the magic", region[..2].to_vec()),
        ("a prefix up to the version", region[..8].to_vec()),
        ("a prefix into the checksum", region[..10].to_vec()),
        ("everything before the checksum", persisted(8)),
        ("a prefix, and the size", persisted(10)),
        ("a V0 blob of zeros that lost its tag", rotted),
    ] {
        assert_eq!(
            resolved(&raw, &Layout::ALL, 0, u16::MAX),
            Ok(None),
            "{state}"
        );
    }
    // The complete region has the shape as well, and is valid.
    let found = resolved(&region, &Layout::ALL, 0, u16::MAX);
    assert_eq!(found, valid(0, 5, Layout::V1));
}

#[test]
fn test_layout_v0_interrupted_creation_rejects_all() {
    let (region, _) = create(&V1, &versions(0, 0));
    assert!(Layout::V1.interrupted_creation(&region[..10]));
    assert!(!Layout::V0.interrupted_creation(&region[..10]));
    assert!(!Layout::V0.interrupted_creation(&[]));
}

/// What `parse` says of a header that each of its tests refuses.
#[test]
fn each_test_of_a_header_has_its_error() {
    let (region, _) = create(&V1, &versions(5, 5));
    let whole = |raw: &[u8]| parse(raw, raw.len() as u64, &V1, &versions(4, 6));
    let changed = |at: usize, byte: u8| with(&region, |raw| raw[at] = byte);
    assert_eq!(whole(&region), Ok((0, BlobVersion::new(5), 4096)));
    let found = *b"XWIK";
    assert_eq!(
        whole(&changed(0, b'X')),
        Err(HeaderError::InvalidMagic { found })
    );
    let (expected, found) = (1, 2);
    assert_eq!(
        whole(&changed(5, 2)),
        Err(HeaderError::UnsupportedLayoutVersion { expected, found })
    );
    let found = *b"CWIC";
    assert_eq!(found, Layout::V0.magic());
    assert_eq!(
        whole(b"CWIC\0\x01\0\0"),
        Err(HeaderError::UnsupportedLayoutVersion {
            expected: 0,
            found: 1
        })
    );
    assert_eq!(whole(&changed(7, 4)), Err(HeaderError::InvalidChecksum));
    assert_eq!(whole(&changed(4095, 1)), Err(HeaderError::InvalidPadding));
    let (required_len, raw_len) = (12, 8);
    assert_eq!(
        whole(&region[..8]),
        Err(HeaderError::Truncated {
            required_len,
            raw_len
        })
    );
    assert_eq!(
        whole(b"CWIC\0\0\0\x05"),
        Err(HeaderError::LayoutMismatch {
            expected: V1,
            found: Layout::V0
        })
    );
    let expected = versions(0, 4);
    let found = BlobVersion::new(5);
    assert_eq!(
        parse(&region, 5000, &V1, &expected),
        Err(HeaderError::VersionMismatch {
            expected: expected.clone(),
            found
        })
    );
    assert_eq!(
        parse(&region, 5000, &V1, &versions(5, 5)),
        Ok((904, found, 4096))
    );
}

#[test]
fn test_header_interrupted_v1_creation_rejects_foreign_bytes() {
    let region = blob_bytes(Layout::V1, 5, b"");
    let of_v0 = |payload: &[u8]| with(&blob_bytes(Layout::V0, 5, payload), |raw| raw[3] = 0);
    let zeros = blob_bytes(Layout::V1, 5, &[0; 100]);
    for (state, raw) in [
        ("another magic", with(&region, |raw| raw[0] = b'X')),
        ("another layout version", with(&region, |raw| raw[4] = 2)),
        ("a lost byte of the magic", with(&region, |raw| raw[3] = 0)),
        (
            "a lost byte of the layout version",
            with(&region, |raw| raw[5] = 0),
        ),
        (
            "another checksum",
            with(&region, |raw| raw[9] = raw[9].wrapping_add(1).max(1)),
        ),
        ("padding", with(&region, |raw| raw[100] = 0xFF)),
        ("data after the region", with(&region, |raw| raw.push(1))),
        (
            "a V0 blob with a version that lost its tag",
            of_v0(&[0; 100]),
        ),
        (
            "a V0 blob with data that lost its tag",
            of_v0(&[0xAA, 0xBB]),
        ),
        ("zeros, one byte longer than a region", vec![0; 4097]),
        (
            "zeros after a region without its checksum",
            with(&zeros, |raw| raw[8..12].fill(0)),
        ),
    ] {
        assert_ne!(
            resolved(&raw, &Layout::ALL, 0, u16::MAX),
            Ok(None),
            "{state}"
        );
    }
}

#[test]
fn test_header_bytes_round_trip() {
    let raw = blob_bytes(Layout::V0, 123, b"");
    assert_eq!(
        resolved(&raw, &Layout::ALL, 0, u16::MAX),
        valid(0, 123, Layout::V0)
    );
    let (again, _) = create(&V0, &versions(123, 123));
    assert_eq!(raw, again);
}
