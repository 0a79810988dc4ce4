//! The tests of the memory store, and of the wrapper over it.
use crate::{blob_bytes, plain_store, versions};
use blobcrash::header::{Layout, create};
use blobcrash::{
    Builder, Config, Error, PartialWriteMode, Probability, Store, WriteConfig, WriteOptions,
};

const PLAIN: fn() -> WriteOptions = WriteOptions::default;
const TRUE: u64 = 0;
const FALSE: u64 = u64::MAX;

/// A store with a raw blob.
fn with_image(name: &[u8], raw: &[u8]) -> Builder {
    Store::builder().allow_stale().image("partition", name, raw)
}

/// A draw for each byte, with a rate of 1/2, decides whether it is kept.
fn subset(failure_rate: Probability) -> Config {
    Config::default().write(WriteConfig {
        failure_rate,
        retention_rate: Probability::new(1, 2).unwrap(),
        mode: PartialWriteMode::Subset,
    })
}

fn raw(store: &Store, name: &[u8]) -> Vec<u8> {
    store.raw_blob("partition", name).unwrap().unwrap()
}

/// The bytes of a new handle.
fn durable(store: &Store, name: &[u8]) -> Vec<u8> {
    let (blob, size) = store.open_loose("partition", name, 0..=0).unwrap();
    blob.read_at(0, size as usize).unwrap()
}

/// Whether the refusal of an open has this reason.
fn is_corrupt(store: &Store, name: &[u8], reason: &str) -> bool {
    match store.open("partition", name) {
        Err(Error::BlobCorrupt(_, _, found)) => found.contains(reason),
        _ => false,
    }
}

/// The counterpart pauses the sync between its copy of the live bytes and their publication. A call of this crate has no such
/// place: it takes the store's lock.
#[test]
fn test_concurrent_sync_preserves_durable_append() {
    for options in [WriteOptions::SYNC, PLAIN()] {
        let store = plain_store();
        let (blob, _) = store.open("partition", b"blob").unwrap();
        blob.write_at(0, b"old", WriteOptions::SYNC).unwrap();
        std::thread::scope(|scope| {
            let sync = scope.spawn(|| blob.sync());
            blob.write_at(3, b"new", options).unwrap();
            if options == PLAIN() {
                blob.sync().unwrap();
            }
            sync.join().unwrap().unwrap();
        });
        assert_eq!(blob.read_at(0, 6).unwrap(), b"oldnew");
        drop(blob);
        let (again, size) = store.open("partition", b"blob").unwrap();
        assert_eq!(size, 6);
        assert_eq!(again.read_at(0, 6).unwrap(), b"oldnew");
    }
}

#[test]
fn test_empty_write_semantics() {
    let store = plain_store();
    let (plain, _) = store.open("partition", b"plain").unwrap();
    plain.write_at(8, b"", PLAIN()).unwrap();
    plain.sync().unwrap();
    drop(plain);
    assert_eq!(store.open("partition", b"plain").unwrap().1, 8);
    let (sync, _) = store.open("partition", b"sync").unwrap();
    sync.write_at(8, b"", WriteOptions::SYNC).unwrap();
    drop(sync);
    assert_eq!(store.open("partition", b"sync").unwrap().1, 0);
}

#[test]
fn test_set_raw_blob_retires_live_generation() {
    let store = plain_store();
    let (stale, _) = store.open("partition", b"blob").unwrap();
    stale.write_at(0, b"stale", PLAIN()).unwrap();

    let installed = blob_bytes(Layout::V1, 0, b"current");
    store
        .set_raw_blob("partition", b"blob", &installed)
        .unwrap();
    let missing = Error::BlobMissing("partition".to_owned(), "626c6f62".to_owned());
    assert_eq!(stale.sync(), Err(missing));
    assert_eq!(raw(&store, b"blob"), installed);

    let (fresh, size) = store.open("partition", b"blob").unwrap();
    assert_eq!((size, fresh.version()), (7, 0));
    assert_eq!(fresh.read_at(0, 7).unwrap(), b"current");
    drop(stale);
    let already = Error::BlobAlreadyOpen("partition".to_owned(), "626c6f62".to_owned());
    assert_eq!(store.open("partition", b"blob").err(), Some(already));
    drop(fresh);
    drop(store.open("partition", b"blob").unwrap());
}

/// The counterpart applies chosen bytes to the durable ones by a call of its own. Here they are those of a pending write through a
/// second handle, and the words of the crash choose them.
#[test]
fn test_crash_write_merges_durable_bytes_only() {
    let alternating = [FALSE, TRUE, FALSE, TRUE, FALSE, TRUE, FALSE, TRUE];
    let builder = Store::builder().allow_stale().words(&alternating);
    let store = builder.words(&[FALSE, TRUE, FALSE]).open().unwrap();
    let (blob, _) = store.open("partition", b"blob").unwrap();
    blob.write_at(0, b"abcdefgh", PLAIN()).unwrap();
    blob.sync().unwrap();
    blob.write_at(0, b"ABCDEFGH", PLAIN()).unwrap();
    // From here on a crash draws for what is written.
    store.configure(subset(Probability::ZERO)).unwrap();
    let (other, _) = store.open_loose("partition", b"blob", 0..=0).unwrap();
    other.write_at(0, b"12345678", PLAIN()).unwrap();
    store.crash().unwrap();
    assert_eq!(blob.read_at(0, 8).unwrap(), b"ABCDEFGH");
    assert_eq!(durable(&store, b"blob"), b"a2c4e6g8");

    let (sparse, _) = store.open("partition", b"sparse").unwrap();
    sparse.write_at(4, b"xyz", PLAIN()).unwrap();
    store.crash().unwrap();
    assert_eq!(durable(&store, b"sparse"), b"\0\0\0\0\0y");

    let (removed, _) = store.open("partition", b"removed").unwrap();
    store.remove("partition", Some(b"removed")).unwrap();
    let (replacement, _) = store.open("partition", b"removed").unwrap();
    replacement
        .write_at(0, b"new!", WriteOptions::SYNC)
        .unwrap();
    // Every further draw is true.
    removed.write_at(0, b"lost", PLAIN()).unwrap();
    let kept = store.crash().unwrap();
    assert_eq!(kept.last().unwrap().1, [true; 4]);
    assert_eq!(durable(&store, b"removed"), b"new!");
}

fn check_subset_write(layout: Layout, fails: bool) {
    let (original, retained) = (b"abcdefghijklmnop", b"AbCdEfGhIjKlMnOp");
    let image = blob_bytes(layout, 0, original);
    let header = &image[..layout.data_offset() as usize];
    let failure_rate = if fails {
        Probability::ONE
    } else {
        Probability::ZERO
    };
    let words: Vec<u64> = (0..16).map(|place| [TRUE, FALSE][place % 2]).collect();
    let builder = with_image(b"blob", &image).words(&words);
    let store = builder.config(subset(failure_rate)).open().unwrap();
    let (blob, size) = store.open("partition", b"blob").unwrap();
    assert_eq!((size, blob.version()), (16, 0));
    let outcome = blob.write_at(0, b"ABCDEFGHIJKLMNOP", PLAIN());
    assert_eq!(outcome, if fails { Err(Error::Injected) } else { Ok(()) });
    drop(blob);
    // What a failed write keeps is durable immediately.
    let payload: &[u8] = if fails { retained } else { original };
    assert_eq!(raw(&store, b"blob"), [header, payload].concat());
    store.restart().unwrap();
    assert_eq!(raw(&store, b"blob"), [header, retained].concat());
    let (blob, size) = store.open("partition", b"blob").unwrap();
    assert_eq!((size, blob.version()), (16, 0));
    assert_eq!(blob.read_at(0, 16).unwrap(), retained);
}

#[test]
fn test_subset_write_preserves_v0_and_v1_headers() {
    for layout in [Layout::V0, Layout::V1] {
        check_subset_write(layout, true);
        check_subset_write(layout, false);
    }
}

/// The blob of the V0 writer is an image here: this crate creates V1.
#[test]
fn test_v0_writer_reopens_with_current_layout() {
    let store = with_image(b"blob", &blob_bytes(Layout::V0, 7, b""))
        .open()
        .unwrap();
    let open = || store.open_versioned("partition", b"blob", 7..=7).unwrap();
    let (blob, size) = open();
    assert_eq!((size, blob.version()), (0, 7));
    blob.write_at(0, b"payload", WriteOptions::SYNC).unwrap();
    drop(blob);
    assert_eq!(raw(&store, b"blob"), b"CWIC\0\0\0\x07payload");
    store.reopen().unwrap();
    let (blob, size) = open();
    assert_eq!((size, blob.version()), (7, 7));
    assert_eq!(blob.read_at(0, 7).unwrap(), b"payload");
    blob.write_at(7, b"!", WriteOptions::SYNC).unwrap();
    drop(blob);
    let (blob, size) = open();
    assert_eq!((size, blob.version()), (8, 7));
    assert_eq!(blob.read_at(0, 8).unwrap(), b"payload!");
}

#[test]
fn test_blob_header_handling() {
    let data = b"hello world";
    let v0 = blob_bytes(Layout::V0, 0, data);
    let builder = with_image(b"v0", &v0).image("partition", b"corrupted", &[0; 2]);
    let store = builder.open().unwrap();
    let (blob, size) = store.open("partition", b"test").unwrap();
    assert_eq!(size, 0);
    assert_eq!(raw(&store, b"test").len(), 4096);
    blob.write_at(0, data, PLAIN()).unwrap();
    blob.sync().unwrap();
    let found = raw(&store, b"test");
    assert_eq!(
        (&found[..4], &found[4096..]),
        (b"CWIK".as_slice(), data.as_slice())
    );
    assert_eq!(blob.read_at(0, data.len()).unwrap(), data);

    let (blob, size) = store.open("partition", b"v0").unwrap();
    assert_eq!(size, 11);
    assert_eq!(blob.read_at(0, 11).unwrap(), data);
    blob.write_at(11, b"!", PLAIN()).unwrap();
    blob.sync().unwrap();
    assert_eq!(raw(&store, b"v0"), b"CWIC\0\0\0\0hello world!");

    let (_blob, size) = store.open("partition", b"corrupted").unwrap();
    assert_eq!(size, 0);
    assert_eq!(raw(&store, b"corrupted").len(), 4096);
}

#[test]
fn test_blob_magic_mismatch() {
    let store = with_image(b"bad_magic", b"XXXXXXXX").open().unwrap();
    assert!(is_corrupt(&store, b"bad_magic", "invalid magic"));
}

/// The digests are those of the rows of the memory store.
#[test]
fn test_audit_separates_partition_and_blob_names() {
    let digest = |partition: &str, name: &[u8]| {
        let store = plain_store();
        let (blob, _) = store.open(partition, name).unwrap();
        blob.write_at(0, b"d", PLAIN()).unwrap();
        blob.sync().unwrap();
        store.audit()
    };
    assert_eq!(digest("a", b"bc"), [0x4b, 0x34, 0xf6, 0x50]);
    assert_eq!(digest("ab", b"c"), [0xb5, 0xc7, 0xe7, 0xd9]);
}

#[derive(Debug, PartialEq)]
enum Expected {
    Created,
    Kept,
    Refused,
}

/// What an open does with bytes of a V0 creation of which some weren't written.
fn expected(image: &[u8], canonical: &[u8]) -> Expected {
    let written = image
        .iter()
        .rposition(|byte| *byte != 0)
        .map_or(0, |last| last + 1);
    if image.len() < canonical.len() {
        Expected::Created
    } else if image == canonical {
        Expected::Kept
    } else if image[..6] != canonical[..6]
        && written <= 3
        && image[..written] == canonical[..written]
    {
        Expected::Created
    } else {
        Expected::Refused
    }
}

#[test]
fn test_v0_creation_images_exhaustive() {
    for version in [0, 3, 0x0100, 0xFFFF] {
        let accepted = version..=version;
        let store = plain_store();
        drop(
            store
                .open_versioned("partition", b"v1", accepted.clone())
                .unwrap(),
        );
        let canonical_v1 = raw(&store, b"v1");
        let (canonical_v0, _) = create(&(Layout::V0..=Layout::V0), &versions(version, version));
        for len in 0..=canonical_v0.len() {
            for mask in 0_u16..1 << len {
                let mut image = canonical_v0[..len].to_vec();
                for (bit, byte) in image.iter_mut().enumerate() {
                    if mask & 1 << bit != 0 {
                        *byte = 0;
                    }
                }
                let store = with_image(b"v0", &image).open().unwrap();
                let result = store.open_versioned("partition", b"v0", accepted.clone());
                let found = result.map(|(blob, size)| (size, blob.version()));
                let expected = expected(&image, &canonical_v0);
                match found {
                    Ok(found) if expected != Expected::Refused => assert_eq!(found, (0, version)),
                    _ => assert_eq!((found.is_err(), &expected), (true, &Expected::Refused)),
                }
                let left = if expected == Expected::Created {
                    &canonical_v1
                } else {
                    &image
                };
                assert_eq!(&raw(&store, b"v0"), left, "{image:?}");
            }
        }
    }
}

#[test]
fn test_blob_torn_creation_recovers() {
    let (region, _) = create(&Layout::ALL, &versions(0, 0));
    let store = with_image(b"torn_0", &region[..10]).open().unwrap();
    let (blob, size) = store.open("partition", b"torn_0").unwrap();
    assert_eq!(size, 0);
    blob.write_at(0, b"data", PLAIN()).unwrap();
    blob.sync().unwrap();
    drop(blob);
    let (blob, size) = store.open("partition", b"torn_0").unwrap();
    assert_eq!(size, 4);
    assert_eq!(blob.read_at(0, 4).unwrap(), b"data");
}

#[test]
fn test_blob_v1_rejects_nonzero_header_padding() {
    let mut image = blob_bytes(Layout::V1, 0, b"payload");
    image[12] = 0xFF;
    let store = with_image(b"dirty_padding", &image).open().unwrap();
    assert!(is_corrupt(&store, b"dirty_padding", "header padding"));
}

#[test]
fn test_blob_zero_payload_with_lost_crc_stays_corrupt() {
    let mut image = blob_bytes(Layout::V1, 0, &[0; 100]);
    image[8..12].fill(0);
    let store = with_image(b"rotted", &image).open().unwrap();
    assert!(is_corrupt(&store, b"rotted", ""));
}
