//! Files in sectors of letters.
use blobcrash::files::{Builder, Files, Profile};
use blobcrash::{Config, Error, PartialWriteMode, Probability, WriteConfig};

pub const SECTOR: usize = 512;

pub fn half() -> Probability {
    Probability::new(1, 2).unwrap()
}

/// No fault, and a crash keeps any sectors of unsynced writes.
pub fn config() -> Config {
    Config::default().write(WriteConfig {
        failure_rate: Probability::ZERO,
        retention_rate: half(),
        mode: PartialWriteMode::Sectors(SECTOR as u64),
    })
}

/// Files of which a crash keeps any sectors of unsynced writes.
pub fn builder(profile: Profile) -> Builder {
    Files::builder().profile(profile).config(config())
}

/// Sectors of letters, and of zeros for `0`.
pub fn sectors(letters: &str) -> Vec<u8> {
    let fill = |letter| if letter == b'0' { 0 } else { letter };
    letters
        .bytes()
        .flat_map(|letter| [fill(letter); SECTOR])
        .collect()
}

/// The letters of a file's sectors, or `-` if there is no file.
pub fn letters(files: &Files, path: &str) -> Result<String, Error> {
    let bytes = match files.read(path) {
        Err(Error::NotFound) => return Ok("-".to_owned()),
        found => found?,
    };
    assert_eq!(bytes.len() % SECTOR, 0);
    let letter = |sector: &[u8]| {
        assert!(sector.iter().all(|byte| *byte == sector[0]));
        if sector[0] == 0 {
            '0'
        } else {
            sector[0] as char
        }
    };
    Ok(bytes.chunks(SECTOR).map(letter).collect())
}
