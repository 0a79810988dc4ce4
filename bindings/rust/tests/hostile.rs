//! The rows of `tests/hostile.tsv` in Rust. Its head says what they are.
use blobcrash::{
    Blob, Builder, Config, Error, PartialWriteMode, Probability, Store, WriteConfig, WriteOptions,
    run_script,
};
use std::collections::BTreeMap;
use std::ops::RangeInclusive;

const WORDS: [u64; 11] = [0, MAX, MAX, 0, MAX, 0, 0, MAX, 0, MAX, MAX];
const MAX: u64 = u64::MAX;
const HEADER: &[u8] = b"CWIC\0\0\0\0";
const RATES: [&str; 7] = [
    "open 1 2",
    "read 1 2",
    "sync 1 2",
    "remove 1 2",
    "scan 1 2",
    "write 1 2 0 1 subset",
    "resize 1 2 0 1",
];

type Blobs = BTreeMap<(String, Vec<u8>), Vec<u8>>;

fn blobs() -> Blobs {
    let blob = |partition: &str, name: &[u8], data: &[u8]| {
        ((partition.to_owned(), name.to_vec()), data.to_vec())
    };
    Blobs::from([
        blob("p", b"a", b"abcdef"),
        blob("p", b"b", b"second"),
        blob("62", b"c", b"third"),
    ])
}

fn decoded(text: &str) -> Vec<u8> {
    let mut bytes = Vec::new();
    let mut rest = text.as_bytes();
    while let Some((byte, others)) = rest.split_first() {
        rest = others;
        if *byte == b'%' {
            let digits = std::str::from_utf8(&rest[..2]).unwrap();
            bytes.push(u8::from_str_radix(digits, 16).unwrap());
            rest = &rest[2..];
        } else {
            bytes.push(*byte);
        }
    }
    bytes
}

fn text(word: &str) -> String {
    let value = word.strip_prefix("text:").unwrap();
    String::from_utf8(decoded(value)).unwrap()
}

fn bytes(word: &str) -> Vec<u8> {
    decoded(word.strip_prefix("bytes:").unwrap())
}

fn int(word: &str) -> u64 {
    let value = word.strip_prefix("int:").unwrap();
    match value.strip_prefix("MAX") {
        Some("") => MAX,
        Some(less) => MAX - less.strip_prefix('-').unwrap().parse::<u64>().unwrap(),
        None => value.parse().unwrap(),
    }
}

fn versions(words: &[&str]) -> RangeInclusive<u16> {
    match words {
        [] => 0..=0,
        ["spent:"] => {
            let mut spent = 0..=0;
            spent.next();
            spent
        }
        _ => int(words[0]).try_into().unwrap()..=int(words[1]).try_into().unwrap(),
    }
}

/// The one configuration of the table that types can express and no line can, and others of the same kind.
fn config(setting: &str) -> Config {
    let words: Vec<&str> = setting.split(' ').collect();
    let ["write", fault, of_faults, kept, of_kept, "sectors", size] = words[..] else {
        assert_eq!(setting, "clear");
        return Config::default();
    };
    let rate = |n: &str, d: &str| Probability::new(n.parse().unwrap(), d.parse().unwrap()).unwrap();
    Config::default().write(WriteConfig {
        failure_rate: rate(fault, of_faults),
        retention_rate: rate(kept, of_kept),
        mode: PartialWriteMode::Sectors(size.parse().unwrap()),
    })
}

fn builder(first: u64, call: &str, words: &[&str]) -> Builder {
    let mut builder = Store::builder().words(&[first]).words(&WORDS);
    for ((partition, name), data) in blobs() {
        builder = builder.image(&partition, &name, &[HEADER, &data].concat());
    }
    match call {
        "image" => builder.image(&text(words[0]), &bytes(words[1]), &bytes(words[2])),
        "seed" => builder.seed(int(words[0])),
        _ => builder,
    }
}

fn perform(store: &Store, blob: &Blob, call: &str, words: &[&str]) -> Result<(), Error> {
    let name = || {
        words
            .get(1)
            .filter(|word| **word != "none:")
            .map(|word| bytes(word))
    };
    let partition = || text(words[0]);
    let length = |word: &str| usize::try_from(int(word)).unwrap();
    match call {
        "open" => store
            .open_versioned(&partition(), &name().unwrap(), versions(&words[2..]))
            .map(drop),
        "loose" => store
            .open_loose(&partition(), &name().unwrap(), versions(&words[2..]))
            .map(drop),
        "remove" => store.remove(&partition(), name().as_deref()),
        "scan" => store.scan(&partition()).map(drop),
        "admit" => store.admit(&partition(), &name().unwrap()),
        "read" => blob.read_at(int(words[0]), length(words[1])).map(drop),
        "write" => blob.write_at(int(words[0]), &bytes(words[1]), WriteOptions::default()),
        "writes" => blob.write_at(int(words[0]), &bytes(words[1]), WriteOptions::SYNC),
        "resize" => blob.resize(int(words[0])),
        "configure" => store.configure(config(&text(words[0]))),
        "call" => store.call(&text(words[0])).map(drop),
        "image" | "seed" => Ok(()),
        _ => panic!("no call: {call}"),
    }
}

/// The outcome of a call, as the table has it.
fn outcome_of(result: Result<(), Error>) -> String {
    let error = match result {
        Ok(()) => return "ok".to_owned(),
        Err(error) => error,
    };
    match error {
        Error::Argument(_) | Error::BadLine(_) => "refused".to_owned(),
        Error::PartitionNameInvalid(partition) => format!("PartitionNameInvalid:{partition}"),
        Error::PartitionMissing(partition) => format!("PartitionMissing:{partition}"),
        Error::BlobMissing(partition, name) => format!("BlobMissing:{partition}:{name}"),
        Error::BlobAlreadyOpen(partition, name) => format!("BlobAlreadyOpen:{partition}:{name}"),
        Error::BlobVersionMismatch { expected, found } => {
            format!("BlobVersionMismatch:{}:{}:{found}", expected.0, expected.1)
        }
        other => format!("{other:?}"),
    }
}

/// The durable blobs.
fn durable(store: &Store) -> Blobs {
    store.call("config clear").unwrap();
    let mut found = Blobs::new();
    for partition in ["p", "62", "q", "-", "clear", &"n".repeat(300)] {
        for name in store.scan(partition).unwrap_or_default() {
            let (blob, size) = store.open_loose(partition, &name, 0..=65535).unwrap();
            let data = blob.read_at(0, size as usize).unwrap();
            found.insert((partition.to_owned(), name), data);
        }
    }
    found
}

/// What doesn't hold of a row if this is the first word.
fn wrong(first: u64, row: &[&str], draws: usize) -> Option<String> {
    let words: Vec<&str> = row[2].split(' ').collect();
    let (call, mut outcome, mut leaves) = (row[1], row[4], row[5]);
    let store = match builder(first, call, &words).open() {
        Ok(store) => store,
        Err(error) => {
            let found = outcome_of(Err(error));
            return (found != outcome).then(|| format!("{found} in place of {outcome}"));
        }
    };
    let (blob, _) = store.open("p", b"a").unwrap();
    for rate in RATES {
        store.call(&format!("config {rate}")).unwrap();
    }
    let script = store.script();
    let found = outcome_of(perform(&store, &blob, call, &words));
    if draws > 0 && first == 0 {
        (outcome, leaves) = ("Injected", "-");
    }
    let outcome = String::from_utf8(decoded(outcome)).unwrap();
    if found != outcome {
        return Some(format!("{found} in place of {outcome}"));
    }
    if found == "refused" && store.script() != script {
        return Some(format!("the script is {}", store.script()));
    }
    store.call("config scan 1 2").unwrap();
    let all: Vec<u64> = [first].into_iter().chain(WORDS).collect();
    for word in &all[draws..draws + 6] {
        if store.scan("p").is_err() != (*word == 0) {
            return Some(format!("it doesn't take {draws} words"));
        }
    }
    let mut wanted = blobs();
    if let Some((path, data)) = leaves.split_once('=') {
        let (partition, name) = path.split_once('/').unwrap();
        wanted.insert((partition.to_owned(), decoded(name)), decoded(data));
    }
    let left = durable(&store);
    if left != wanted {
        return Some(format!("it leaves {left:?}"));
    }
    let ran = run_script(store.script().as_bytes());
    ran.err().map(|error| format!("the script is bad: {error}"))
}

#[test]
fn the_table_of_hostile_arguments_holds() {
    let table = concat!(env!("CARGO_MANIFEST_DIR"), "/../../tests/hostile.tsv");
    let table = std::fs::read_to_string(table).unwrap();
    let (mut held, mut other, mut broken) = (0, 0, Vec::new());
    for (number, line) in (1..)
        .zip(table.lines())
        .filter(|(_, line)| !line.starts_with('#'))
    {
        let row: Vec<&str> = line.split('\t').collect();
        if !row[0].contains('R') {
            other += 1;
            continue;
        }
        let (usual, if_true) = row[3].split_once('/').unwrap_or((row[3], row[3]));
        let reason = wrong(MAX, &row, usual.parse().unwrap());
        match reason.or_else(|| wrong(0, &row, if_true.parse().unwrap())) {
            None => held += 1,
            Some(reason) => broken.push(format!("{number}: {} {}: {reason}", row[1], row[2])),
        }
    }
    println!(
        "{held} rows hold, {} don't; Rust's types can't express {other}",
        broken.len()
    );
    assert!(broken.is_empty(), "{}", broken.join("\n"));
    assert!(held > 100);
}
