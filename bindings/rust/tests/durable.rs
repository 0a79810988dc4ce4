//! Durable bytes and headers. The digests are those of the rows of the memory store.
use blobcrash::header::{Layout, create, resolve};
use blobcrash::storage::BlobVersion;
use blobcrash::{Config, Error, Probability, Store, WriteOptions};

const EMPTY: [u8; 4] = [0x8d, 0x73, 0x48, 0x41];

#[test]
fn the_digest_of_the_rows() {
    assert_eq!(Store::builder().open().unwrap().audit(), EMPTY);
    let two = Store::builder()
        .image("p", b"c", b"y")
        .image("p", b"b", b"x")
        .open()
        .unwrap();
    assert_eq!(two.audit(), [0x94, 0x4a, 0xf4, 0xdd]);
    // No lengths separate the pieces.
    let one = Store::builder()
        .image("p", b"b", b"xpartitionpblobccontenty")
        .open()
        .unwrap();
    assert_eq!(one.audit(), two.audit());
    one.remove("p", None).unwrap();
    assert_eq!(one.audit(), EMPTY);
    let builder = Store::builder().image("a", b"IC", b"CWIC\0\0\0\x07abc");
    let three = builder.open().unwrap();
    drop(three.open("b", b"\xff").unwrap());
    drop(three.open("p", b"gone").unwrap());
    three.remove("p", Some(b"gone")).unwrap();
    assert_ne!(three.audit(), EMPTY);
}

#[test]
fn raw_bytes_are_the_durable_ones() {
    let image = b"CWIC\0\0\0\x07abc";
    let builder = Store::builder()
        .image("p", b"v0", image)
        .image("p", b"torn", b"CWIK")
        .image("q!", b"i", b"bytes");
    let scans = Config::default()
        .scan(Probability::ONE)
        .read(Probability::ONE);
    let store = builder
        .image("p", b"none", b"none of a header")
        .config(scans)
        .seed(7)
        .open()
        .unwrap();
    let before = store.script();
    let raw = |name: &[u8]| store.raw_blob("p", name).unwrap();
    assert_eq!(raw(b"v0").unwrap(), image);
    assert_eq!(raw(b"torn").unwrap(), b"CWIK");
    assert_eq!(raw(b"none").unwrap(), b"none of a header");
    assert_eq!(raw(b"missing"), None);
    assert_eq!(store.raw_blob("q", b"v0"), Ok(None));
    assert_eq!(store.raw_blob("q!", b"v0"), Ok(None));
    // No call can name this partition.
    assert_eq!(store.raw_blob("q!", b"i").unwrap().unwrap(), b"bytes");
    assert_eq!(store.logical_blob("p", b"v0").unwrap().unwrap(), b"abc");
    assert_eq!(store.logical_blob("p", b"torn"), Ok(None));
    assert_eq!(store.logical_blob("p", b"none"), Ok(None));
    assert_eq!(store.script(), before);
}

#[test]
fn raw_bytes_follow_what_becomes_durable() {
    let image = b"CWIC\0\0\0\x07abc";
    let builder = Store::builder().image("p", b"v0", image);
    let store = builder.image("p", b"torn", b"CWIK").open().unwrap();
    let raw = |name: &[u8]| store.raw_blob("p", name).unwrap();
    let (blob, _) = store.open_versioned("p", b"torn", 0..=65535).unwrap();
    let created = BlobVersion::new(65535)..=BlobVersion::new(65535);
    let (region, _) = create(&Layout::ALL, &created);
    assert_eq!(raw(b"torn").unwrap(), region);
    blob.write_at(0, b"live", WriteOptions::default()).unwrap();
    assert_eq!(raw(b"torn").unwrap(), region);
    blob.sync().unwrap();
    assert_eq!(raw(b"torn").unwrap(), [region.as_slice(), b"live"].concat());
    store.remove("p", Some(b"v0")).unwrap();
    assert_eq!(raw(b"v0"), None);

    let unrecorded = Store::builder().unrecorded().open().unwrap();
    drop(unrecorded.open("p", b"b").unwrap());
    assert!(unrecorded.raw_blob("p", b"b").unwrap().is_some());
}

/// The library accepts what `create` makes.
#[test]
fn created_headers_are_valid() {
    let bits = (0..16).map(|bit| 1 << bit);
    let versions = (0..=u16::MAX).step_by(251).chain(bits);
    for version in versions
        .chain([u16::MAX - 1, u16::MAX])
        .map(BlobVersion::new)
    {
        for layout in [Layout::V0, Layout::V1] {
            let (raw, _) = create(&(layout..=layout), &(version..=version));
            let len = raw.len() as u64;
            let found = resolve(
                &raw,
                len,
                &(layout..=layout),
                &(version..=version),
                "p",
                b"b",
            );
            assert_eq!(found, Ok(Some((0, version, layout.data_offset()))));
        }
    }
}

#[test]
fn the_length_of_a_blob_may_be_more_than_its_prefix() {
    let any = BlobVersion::new(0)..=BlobVersion::new(u16::MAX);
    let zero = BlobVersion::new(0);
    let found = |raw: &[u8], len| resolve(raw, len, &Layout::ALL, &any, "p", b"b");
    let (v1, _) = create(&Layout::ALL, &(zero..=zero));
    assert_eq!(
        found(&v1, u64::MAX),
        Ok(Some((u64::MAX - 4096, zero, 4096)))
    );
    let v0 = [b"CWIC\0\0\0\0".as_slice(), &[1; 4088]].concat();
    assert_eq!(found(&v0, 5000), Ok(Some((4992, zero, 8))));
    assert_eq!(found(&[0; 4096], 4096), Ok(None));
    assert!(matches!(
        found(&[0; 4096], 4097),
        Err(Error::BlobCorrupt(..))
    ));
    assert_eq!(found(b"", 0), Ok(None));
}

#[test]
fn a_raw_blob_replaces_a_blob_whatever_the_rates_are() {
    let all_fail = Config::default()
        .open(Probability::ONE)
        .remove(Probability::ONE)
        .sync(Probability::ONE);
    let store = Store::builder().config(all_fail).open().unwrap();
    let version = BlobVersion::new(3);
    let (mut raw, _) = create(&Layout::ALL, &(version..=version));
    store.set_raw_blob("p", b"b", &raw).unwrap();
    assert_eq!(store.raw_blob("p", b"b").unwrap().unwrap(), raw);
    raw.extend(b"abc");
    store.set_raw_blob("p", b"b", &raw).unwrap();
    assert_eq!(store.raw_blob("p", b"b").unwrap().unwrap(), raw);
    store.crash().unwrap();
    assert_eq!(store.raw_blob("p", b"b").unwrap().unwrap(), raw);
    assert_eq!(store.open("p", b"b").err(), Some(Error::Injected));
    let replies = blobcrash::run_script(store.script().as_bytes()).unwrap();
    assert!(replies.ends_with(b"ok\nok\nok\nok\nok\nok\ncrashed\nerror Injected\n"));
}

#[test]
fn a_raw_blob_without_a_whole_header_of_layout_v1_is_refused() {
    let store = Store::builder().open().unwrap();
    let version = BlobVersion::new(0);
    let (region, _) = create(&Layout::ALL, &(version..=version));
    let mut damaged = region.clone();
    damaged[9] ^= 1;
    for raw in [
        b"".as_slice(),
        b"CWIC\0\0\0\0abc",
        &region[..4095],
        &damaged,
    ] {
        let refused = store.set_raw_blob("p", b"b", raw);
        assert!(matches!(refused, Err(Error::Argument(_))));
    }
    let refused = store.set_raw_blob("a b", b"b", &region);
    assert_eq!(refused, Err(Error::PartitionNameInvalid("a b".to_owned())));
    store.crash_after(0).unwrap();
    assert_eq!(store.open("p", b"b").err(), Some(Error::PowerLoss));
    let refused = store.set_raw_blob("p", b"b", &region);
    assert_eq!(refused, Err(Error::PowerLoss));
    store.restart().unwrap();
    assert_eq!(store.raw_blob("p", b"b"), Ok(None));
}
