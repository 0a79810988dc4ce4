//! The library as it is declared in `bindings/c/blobcrash.h`: its statuses, structs and functions. `library`, `session` and `paths` alone
//! call them.
use crate::debt_calls::{DebtCall, DebtReply};
use std::ffi::c_void;

pub(crate) const DONE: u32 = 0;
pub(crate) const ENDLESS: u32 = 1;
pub(crate) const BAD_LINE: u32 = 2;
pub(crate) const NO_MEMORY: u32 = 3;
pub(crate) const NO_ROOM: u32 = 4;
pub(crate) const UNPRINTED: u32 = 7;
pub(crate) const BAD_CALL: u32 = 8;
pub(crate) const POWER_LOSS: u32 = 9;
/// Below this a status isn't a refusal.
pub(crate) const FIRST_REFUSAL: u32 = 16;
pub(crate) const BLOB_MISSING: u32 = 20;

/// The bit of an effect: what a crash leaves may differ after the call.
pub(crate) const CHANGES: u32 = 1;
/// The tables of words: of the lines of a store, and of profiles.
pub(crate) const KINDS: u32 = 0;
pub(crate) const PROFILES: u32 = 3;

/// Why a header region is refused. Any other status is `TRUNCATED`.
pub(crate) const INVALID_MAGIC: u32 = 48;
pub(crate) const UNSUPPORTED_LAYOUT_VERSION: u32 = 49;
pub(crate) const LAYOUT_MISMATCH: u32 = 50;
pub(crate) const VERSION_MISMATCH: u32 = 51;
pub(crate) const INVALID_CHECKSUM: u32 = 52;
pub(crate) const INVALID_PADDING: u32 = 53;
/// An open would create the blob.
pub(crate) const TO_CREATE: u32 = 55;

/// A session, which belongs to the library.
#[repr(C)]
#[derive(Debug)]
pub(crate) struct RawSession {
    pub(crate) at: *mut c_void,
    pub(crate) is_open: bool,
}

/// How a call ended, and how many bytes its reply has.
#[repr(C)]
pub(crate) struct Ran {
    pub(crate) status: u32,
    pub(crate) len: usize,
}

/// How a script ended, how many bytes its replies have, and which line is bad.
#[repr(C)]
pub(crate) struct ScriptRan {
    pub(crate) status: u32,
    pub(crate) len: usize,
    pub(crate) line: u64,
}

/// A typed call without its bytes.
#[repr(C)]
#[derive(Clone, Copy, Debug)]
pub(crate) struct Asked {
    pub(crate) kind: u32,
    pub(crate) number: usize,
    pub(crate) first: u64,
    pub(crate) last: u64,
}

/// The supply of power of a session.
#[repr(C)]
pub struct PowerState {
    status: u32,
    pub(crate) is_off: bool,
    /// The store has crashed while the power was off, and hasn't reopened.
    pub(crate) has_crashed: bool,
    pub(crate) is_counting: bool,
    changes: u64,
    /// If they are counted, how many more calls are made before the power goes off.
    pub(crate) left: u64,
}

/// The numbers of a reply. Those that a reply doesn't have are 0.
#[repr(C)]
pub(crate) struct TypedReply {
    pub(crate) status: u32,
    /// The version of an opened blob.
    pub(crate) version: u32,
    /// The handle of an opened blob, or the number of a started sync.
    pub(crate) number: usize,
    /// The size of a blob in bytes.
    pub(crate) size: u64,
}

/// Declares kinds of calls, with the numbers that the C header gives them.
macro_rules! kinds {
    ($(#[$about:meta])* $name:ident { $($kind:ident = $number:literal,)* }) => {
        $(#[$about])*
        #[derive(Clone, Copy, Debug, PartialEq, Eq)]
        #[repr(u32)]
        pub(crate) enum $name { $($kind = $number,)* }

        #[cfg(test)]
        impl $name {
            pub(crate) const ALL: &[(&str, u32)] = &[$((stringify!($kind), $number),)*];
        }
    };
}
pub(crate) use kinds;

kinds! {
    /// The kinds of calls.
    Kind {
        Open = 0,
        OpenLoose = 1,
        Admit = 2,
        Close = 3,
        Resize = 4,
        Size = 5,
        Sync = 6,
        StartSync = 7,
        Finish = 8,
        RemoveBlob = 9,
        RemovePartition = 10,
        Scan = 11,
        Crash = 12,
        Reopen = 13,
        Read = 14,
        Write = 15,
        WriteSync = 16,
        Configure = 17,
    }
}

/// A run of bytes of one write that a crash kept.
#[repr(C)]
pub(crate) struct KeptRun {
    pub(crate) status: u32,
    /// The write's number, and how many bytes it submitted.
    pub(crate) write: u64,
    pub(crate) bytes: usize,
    /// The run's first byte, and how many it has: none if no byte follows that was kept.
    pub(crate) start: usize,
    pub(crate) len: usize,
}

/// A choice of a run: which branch it takes, and among how many.
#[repr(C)]
#[derive(Clone, Copy, Debug, Default, PartialEq, Eq)]
pub(crate) struct Choice {
    pub(crate) kind: u32,
    pub(crate) branch: u64,
    pub(crate) among: u64,
}

/// How far a traversal of a tree of choices is. All zeros are the first run of the whole tree.
#[repr(C)]
#[derive(Debug, Default)]
pub(crate) struct Explorer {
    pub(crate) root: usize,
    /// How many choices the path has, and how many the run has made.
    pub(crate) len: usize,
    pub(crate) taken: usize,
    /// How many words the run was given, and how many of them its counted draws have taken.
    pub(crate) given: usize,
    pub(crate) drawn: usize,
    /// Whether the path has another choice than the run has made.
    pub(crate) differs: bool,
}

/// Which branch a choice takes.
#[repr(C)]
pub(crate) struct Branch {
    pub(crate) status: u32,
    pub(crate) branch: u64,
}

/// Which header regions are accepted.
#[repr(C)]
pub(crate) struct Accepts {
    pub(crate) oldest: u16,
    pub(crate) newest: u16,
    pub(crate) least: u16,
    pub(crate) greatest: u16,
}

/// What a header region says.
#[repr(C)]
pub(crate) struct ParsedHeader {
    pub(crate) status: u32,
    pub(crate) version: u32,
    pub(crate) size: u64,
    pub(crate) data_offset: u64,
}

unsafe extern "C" {
    pub(crate) fn blobcrash_fork_session(session: *mut RawSession, fork: *mut RawSession) -> u32;
    pub(crate) fn blobcrash_open(
        session: *mut RawSession,
        preamble: *const u8,
        len: usize,
    ) -> ScriptRan;
    pub(crate) fn blobcrash_call(
        session: *mut RawSession,
        line: *const u8,
        len: usize,
        reply: *mut u8,
        room: usize,
    ) -> Ran;
    pub(crate) fn blobcrash_reply(session: *mut RawSession, reply: *mut u8, room: usize) -> Ran;
    pub(crate) fn blobcrash_write(
        session: *mut RawSession,
        handle: usize,
        offset: u64,
        bytes: *const u8,
        len: usize,
        sync: bool,
    ) -> u32;
    pub(crate) fn blobcrash_read(
        session: *mut RawSession,
        handle: usize,
        offset: u64,
        into: *mut u8,
        len: usize,
    ) -> u32;
    pub(crate) fn blobcrash_apply(
        session: *mut RawSession,
        asked: *const Asked,
        partition: *const u8,
        partition_len: usize,
        name: *const u8,
        name_len: usize,
    ) -> TypedReply;
    pub(crate) fn blobcrash_last(session: *mut RawSession) -> TypedReply;
    pub(crate) fn blobcrash_name(
        session: *mut RawSession,
        index: usize,
        name: *mut u8,
        capacity: usize,
    ) -> Ran;
    pub(crate) fn blobcrash_kept_run(session: *mut RawSession, row: usize, from: usize) -> KeptRun;
    pub(crate) fn blobcrash_effect(kind: u32) -> u32;
    pub(crate) fn blobcrash_word(table: u32, number: u32, into: *mut u8, capacity: usize) -> Ran;
    pub(crate) fn blobcrash_line_of(
        asked: *const Asked,
        partition: *const u8,
        partition_len: usize,
        name: *const u8,
        name_len: usize,
        into: *mut u8,
        capacity: usize,
    ) -> Ran;
    pub(crate) fn blobcrash_power_off_after(session: *mut RawSession, calls: u64) -> u32;
    pub(crate) fn blobcrash_power_on(session: *mut RawSession) -> u32;
    pub(crate) fn blobcrash_power(session: *mut RawSession) -> PowerState;
    pub(crate) fn blobcrash_words_left(session: *mut RawSession) -> Ran;
    pub(crate) fn blobcrash_push_words(
        session: *mut RawSession,
        words: *const u64,
        count: usize,
    ) -> u32;
    pub(crate) fn blobcrash_durable_blob(
        session: *mut RawSession,
        partition: *const u8,
        partition_len: usize,
        name: *const u8,
        name_len: usize,
        with_header: bool,
        into: *mut u8,
        capacity: usize,
    ) -> Ran;
    pub(crate) fn blobcrash_audit(session: *mut RawSession, into: *mut u8, capacity: usize) -> Ran;
    pub(crate) fn blobcrash_debt(
        session: *mut RawSession,
        asked: *const DebtCall,
        partition: *const u8,
        partition_len: usize,
        name: *const u8,
        name_len: usize,
    ) -> DebtReply;
    pub(crate) fn blobcrash_explorer_begin(explorer: *mut Explorer, given: usize);
    pub(crate) fn blobcrash_explorer_choose(
        explorer: *mut Explorer,
        choices: *mut Choice,
        capacity: usize,
        kind: u32,
        among: u64,
    ) -> Branch;
    pub(crate) fn blobcrash_explorer_count(
        explorer: *mut Explorer,
        choices: *mut Choice,
        capacity: usize,
        left: usize,
    ) -> u32;
    pub(crate) fn blobcrash_explorer_count_size(
        explorer: *mut Explorer,
        choices: *mut Choice,
        capacity: usize,
        left: usize,
        among: u64,
    ) -> u32;
    pub(crate) fn blobcrash_explorer_end(explorer: *mut Explorer) -> bool;
    pub(crate) fn blobcrash_tracked_size(session: *mut RawSession, handle: usize) -> TypedReply;
    pub(crate) fn blobcrash_explorer_next(
        explorer: *mut Explorer,
        choices: *mut Choice,
        capacity: usize,
    ) -> bool;
    pub(crate) fn blobcrash_close(session: *mut RawSession);
    pub(crate) fn blobcrash_parse_header(
        raw: *const u8,
        len: usize,
        raw_len: u64,
        accepts: *const Accepts,
    ) -> ParsedHeader;
    pub(crate) fn blobcrash_resolve_header(
        raw: *const u8,
        len: usize,
        raw_len: u64,
        accepts: *const Accepts,
    ) -> ParsedHeader;
    pub(crate) fn blobcrash_create_header(
        layout: u16,
        version: u16,
        into: *mut u8,
        capacity: usize,
    ) -> Ran;
    pub(crate) fn blobcrash_interrupted_creation(layout: u16, raw: *const u8, len: usize) -> bool;
    pub(crate) fn blobcrash_run(
        script: *const u8,
        len: usize,
        replies: *mut u8,
        room: usize,
    ) -> ScriptRan;
    pub(crate) fn blobcrash_explain(
        script: *const u8,
        len: usize,
        text: *mut u8,
        capacity: usize,
    ) -> ScriptRan;
    pub(crate) fn blobcrash_explain_json(
        script: *const u8,
        len: usize,
        text: *mut u8,
        capacity: usize,
    ) -> ScriptRan;
}

/// The numbers are those of the C header. `bindings/c/numbers.c` tests what each of them does.
#[cfg(test)]
pub(crate) mod tests {
    use super::*;
    use std::collections::BTreeMap;

    /// The enumerators of the header, by their names without `BLOBCRASH_`.
    pub(crate) fn header() -> BTreeMap<&'static str, u32> {
        enumerators(include_str!("../../c/blobcrash.h"))
    }

    /// The enumerators of a header's text.
    pub(crate) fn enumerators(text: &'static str) -> BTreeMap<&'static str, u32> {
        let lines = text
            .split('\n')
            .filter_map(|line| line.trim().strip_prefix("BLOBCRASH_"));
        let numbers = lines.filter_map(|line| {
            let (name, rest) = line.split_once(" = ")?;
            let digits = rest.split([',', ' ']).next()?;
            Some((name, digits.parse().ok()?))
        });
        numbers.collect()
    }

    /// `OpenLoose` as `OPEN_LOOSE`.
    pub(crate) fn upper(name: &str) -> String {
        let mut text = String::new();
        for letter in name.chars() {
            if letter.is_ascii_uppercase() && !text.is_empty() {
                text.push('_');
            }
            text.push(letter.to_ascii_uppercase());
        }
        text
    }

    #[test]
    fn statuses_and_refusals() {
        let header = header();
        for (name, number) in [
            ("DONE", DONE),
            ("ENDLESS", ENDLESS),
            ("BAD_LINE", BAD_LINE),
            ("NO_MEMORY", NO_MEMORY),
            ("NO_ROOM", NO_ROOM),
            ("UNPRINTED", UNPRINTED),
            ("BAD_CALL", BAD_CALL),
            ("POWER_LOSS", POWER_LOSS),
            ("CHANGES", CHANGES),
            ("W_KINDS", KINDS),
            ("W_PROFILES", PROFILES),
            ("E_BLOB_MISSING", BLOB_MISSING),
            ("H_INVALID_MAGIC", INVALID_MAGIC),
            ("H_UNSUPPORTED_LAYOUT_VERSION", UNSUPPORTED_LAYOUT_VERSION),
            ("H_LAYOUT_MISMATCH", LAYOUT_MISMATCH),
            ("H_VERSION_MISMATCH", VERSION_MISMATCH),
            ("H_INVALID_CHECKSUM", INVALID_CHECKSUM),
            ("H_INVALID_PADDING", INVALID_PADDING),
            ("H_TO_CREATE", TO_CREATE),
        ] {
            assert_eq!(header.get(name), Some(&number), "{name}");
        }
        let refusals = header.iter().filter(|(name, _)| name.starts_with("E_"));
        assert_eq!(refusals.map(|row| *row.1).min(), Some(FIRST_REFUSAL));
    }

    /// Checks that these kinds have the numbers that a header gives their names after a prefix.
    pub(crate) fn check_kinds(header: &BTreeMap<&str, u32>, prefix: &str, kinds: &[(&str, u32)]) {
        for (kind, number) in kinds {
            let name = format!("{prefix}{}", upper(kind));
            assert_eq!(header.get(name.as_str()), Some(number), "{name}");
        }
    }

    #[test]
    fn kinds_are_those_of_the_header() {
        check_kinds(&header(), "", Kind::ALL);
        // None is left out.
        assert!((0..).zip(Kind::ALL).all(|(at, (_, number))| at == *number));
    }
}
