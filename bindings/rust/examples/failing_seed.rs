//! A record that is acknowledged without a sync: `failing_seed FILE` writes the script of the first seed that loses a part of it.
//!
//! `tools/crash_page` shows that script in a browser.
use blobcrash::{Config, Error, PartialWriteMode, Probability, Store, WriteConfig, WriteOptions};
use std::process::ExitCode;

/// The script of this seed, if it loses a byte of the record.
fn lost(seed: u64) -> Result<Option<String>, Error> {
    let writes = WriteConfig {
        failure_rate: Probability::ZERO,
        retention_rate: Probability::new(1, 2).unwrap(),
        mode: PartialWriteMode::Subset,
    };
    let config = Config::default().write(writes);
    let store = Store::builder().seed(seed).config(config).open()?;
    let (log, _) = store.open("wal", b"log")?;
    log.write_at(0, b"record", WriteOptions::default())?;
    store.note("acknowledged, and not synced");
    store.restart()?;
    let (log, size) = store.open("wal", b"log")?;
    let found = log.read_at(0, size as usize)?;
    Ok((found != b"record").then(|| store.script()))
}

fn main() -> ExitCode {
    let Some(path) = std::env::args_os().nth(1) else {
        return ExitCode::from(2);
    };
    for seed in 0..200 {
        match lost(seed) {
            Ok(None) => {}
            Ok(Some(script)) if std::fs::write(&path, &script).is_ok() => {
                println!("seed {seed} loses a part of the record");
                return ExitCode::from(1);
            }
            _ => return ExitCode::from(2),
        }
    }
    ExitCode::SUCCESS
}
