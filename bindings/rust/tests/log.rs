//! A log with recovery, tested over crashes: a file to copy and to change.
//!
//! The log acknowledges a record once it is synced. Whatever fails and wherever it crashes, recovery has to find each
//! acknowledged record, in order, and may find one more: the record that was being appended.
use blobcrash::{
    Blob, Config, Error, Exploration, ExploreError, PartialWriteMode, Probability, ResizeConfig,
    Store, WriteConfig, WriteOptions,
};

/// Records one after another: the length of the payload, a checksum, and the payload.
struct Log {
    blob: Blob,
    end: u64,
    /// The planted bug: a record is acknowledged before it is durable.
    forgets_sync: bool,
}

const HEAD: usize = 12;

impl Log {
    /// Opens the log, truncates what no append finished, and returns the records.
    fn recover(store: &Store, forgets_sync: bool) -> Result<(Log, Vec<Vec<u8>>), Error> {
        let (blob, size) = store.open("wal", b"log")?;
        let bytes = blob.read_at(0, size as usize)?;
        let mut records = Vec::new();
        let mut end = 0;
        while let Some(payload) = record_at(&bytes, end) {
            end += HEAD + payload.len();
            records.push(payload.to_vec());
        }
        if end < bytes.len() {
            blob.resize(end as u64)?;
            blob.sync()?;
        }
        let end = end as u64;
        let log = Log {
            blob,
            end,
            forgets_sync,
        };
        Ok((log, records))
    }

    /// Appends a record. If this returns `Ok`, the record must never be lost.
    fn append(&mut self, payload: &[u8]) -> Result<(), Error> {
        let mut record = (payload.len() as u32).to_le_bytes().to_vec();
        record.extend(checksum(self.end, payload).to_le_bytes());
        record.extend(payload);
        self.blob
            .write_at(self.end, &record, WriteOptions::default())?;
        if !self.forgets_sync {
            self.blob.sync()?;
        }
        self.end += record.len() as u64;
        Ok(())
    }
}

/// The payload of a whole record at this offset.
fn record_at(bytes: &[u8], offset: usize) -> Option<&[u8]> {
    let head = bytes.get(offset..offset + HEAD)?;
    let len = u32::from_le_bytes(head[..4].try_into().ok()?) as usize;
    let sum = u64::from_le_bytes(head[4..].try_into().ok()?);
    let payload = bytes.get(offset + HEAD..)?.get(..len)?;
    (sum == checksum(offset as u64, payload)).then_some(payload)
}

/// FNV-1a of the offset and the payload, so that no prefix of zeros and no older record passes for this one.
fn checksum(offset: u64, payload: &[u8]) -> u64 {
    let bytes = offset
        .to_le_bytes()
        .into_iter()
        .chain(payload.iter().copied());
    bytes.fold(0xcbf2_9ce4_8422_2325, |sum, byte| {
        (sum ^ u64::from(byte)).wrapping_mul(0x100_0000_01b3)
    })
}

/// One life of a log: sixteen crashes. Returns how many records were acknowledged, or what was lost.
fn live(seed: u64, forgets_sync: bool) -> Result<usize, String> {
    let one_in = |n| Probability::new(1, n).unwrap();
    let faults = Config::default()
        .write(WriteConfig {
            failure_rate: one_in(16),
            retention_rate: one_in(2),
            mode: PartialWriteMode::Subset,
        })
        .sync(one_in(16))
        .resize(ResizeConfig {
            failure_rate: one_in(16),
            partial_rate: one_in(2),
        });
    let builder = Store::builder().seed(seed).config(faults);
    let store = builder.open().map_err(|error| error.to_string())?;
    let mut acknowledged: Vec<Vec<u8>> = Vec::new();
    let mut unanswered: Option<Vec<u8>> = None;
    for round in 0..16_u64 {
        // A recovery that a fault cuts short is one more crash.
        if let Ok((mut log, records)) = Log::recover(&store, forgets_sync) {
            let (known, more) = records.split_at(acknowledged.len().min(records.len()));
            if known != acknowledged {
                return Err(format!(
                    "seed {seed}, crash {round}: {} records were acknowledged, and {} are left of them",
                    acknowledged.len(),
                    known.len()
                ));
            }
            if !more.is_empty() && more != unanswered.as_slice() {
                return Err(format!(
                    "seed {seed}, crash {round}: a record that nobody wrote"
                ));
            }
            acknowledged = records;
            unanswered = None;
            for number in 0..8_u64 {
                let length = (seed + 5 * round + 3 * number) % 40;
                let payload = vec![(16 * round + number) as u8; length as usize];
                if log.append(&payload).is_err() {
                    unanswered = Some(payload);
                    break;
                }
                acknowledged.push(payload);
            }
        }
        store.restart().map_err(|error| error.to_string())?;
    }
    Ok(acknowledged.len())
}

#[test]
fn what_was_acknowledged_is_recovered() {
    let mut records = 0;
    for seed in 0..200 {
        records += live(seed, false).unwrap();
    }
    // A test of crashes needs records that could be lost.
    assert!(records > 5_000, "{records} records in 200 lives");
}

#[test]
fn a_forgotten_sync_is_found() {
    let found = (0..200).find_map(|seed| live(seed, true).err()).unwrap();
    assert!(found.contains("are left of them"), "{found}");
}

/// Appends two records while there is power, and recovers. Returns how many records are left, or what was lost.
fn append_two(store: &Store, forgets_sync: bool) -> Result<usize, String> {
    let mut acknowledged = Vec::new();
    let append = |acknowledged: &mut Vec<Vec<u8>>| {
        let (mut log, _) = Log::recover(store, forgets_sync)?;
        for payload in [b"a", b"b"] {
            log.append(payload)?;
            acknowledged.push(payload.to_vec());
        }
        Ok::<(), Error>(())
    };
    let _ = append(&mut acknowledged);
    // The power may fail during the recovery as well.
    let (_, records) = store
        .recover(|store| Log::recover(store, forgets_sync))
        .map_err(|error| error.to_string())?;
    if !records.starts_with(&acknowledged) || records.len() > acknowledged.len() + 1 {
        return Err(format!(
            "{acknowledged:?} were acknowledged, and {records:?} are left"
        ));
    }
    Ok(records.len())
}

/// Every prefix that a crash keeps of each record, and a power loss at each call.
fn explored(forgets_sync: bool) -> Result<Vec<usize>, ExploreError<String>> {
    let builder = Store::builder().config(Config::default().write(WriteConfig {
        failure_rate: Probability::ZERO,
        retention_rate: Probability::new(1, 2).unwrap(),
        mode: PartialWriteMode::Prefix,
    }));
    let exploration = Exploration::of(&builder).power_losses(2);
    let visited = exploration.visit(|run| append_two(run, forgets_sync))?;
    Ok(visited.outcomes.into_keys().collect())
}

#[test]
fn no_power_loss_takes_what_was_acknowledged() {
    assert_eq!(explored(false), Ok(vec![0, 1, 2]));
}

#[test]
fn an_exploration_finds_a_forgotten_sync() {
    let Err(ExploreError::Failed { error, script, .. }) = explored(true) else {
        panic!("nothing was found");
    };
    assert!(error.contains("were acknowledged, and"), "{error}");
    assert!(script.contains("crash\n"), "{script}");
}
