//! The files of the library as they are declared in `bindings/c/blobcrash_files.h`. `library` and `session` alone call the functions.
use crate::foreign::{KeptRun, PowerState, Ran, ScriptRan, kinds};
use std::ffi::c_void;

/// Files, which belong to the library.
#[repr(C)]
#[derive(Debug)]
pub(crate) struct RawFiles {
    pub(crate) at: *mut c_void,
    pub(crate) is_open: bool,
}

/// A call without its bytes.
#[repr(C)]
#[derive(Clone, Copy, Debug)]
pub(crate) struct RawCall {
    pub(crate) kind: Kind,
    pub(crate) number: u64,
    pub(crate) first: u64,
    pub(crate) last: u64,
}

/// What a call returns. The numbers that it doesn't return are 0.
#[repr(C)]
pub(crate) struct Reply {
    pub(crate) status: u32,
    pub(crate) kind: u32,
    pub(crate) number: u64,
    pub(crate) size: u64,
}

kinds! {
    /// The kinds of calls that this crate makes.
    Kind {
        Create = 0,
        Open = 1,
        OpenTruncated = 2,
        Link = 3,
        Unlink = 4,
        Rename = 5,
        MakeDirectory = 6,
        RemoveDirectory = 7,
        List = 8,
        SyncDirectory = 9,
        Find = 10,
        Close = 32,
        Truncate = 33,
        Size = 34,
        Sync = 35,
        SyncData = 36,
        InodeOf = 37,
        Read = 38,
        Write = 39,
        SyncAll = 48,
        Settle = 49,
        Crash = 50,
        Commit = 52,
    }
}

unsafe extern "C" {
    pub(crate) fn blobcrash_files_open(
        files: *mut RawFiles,
        preamble: *const u8,
        preamble_len: usize,
    ) -> ScriptRan;
    pub(crate) fn blobcrash_files_fork(files: *mut RawFiles, fork: *mut RawFiles) -> u32;
    pub(crate) fn blobcrash_files_configure(
        files: *mut RawFiles,
        setting: *const u8,
        setting_len: usize,
    ) -> u32;
    pub(crate) fn blobcrash_files_apply(
        files: *mut RawFiles,
        asked: *const RawCall,
        path: *const u8,
        path_len: usize,
        to: *const u8,
        to_len: usize,
    ) -> Reply;
    pub(crate) fn blobcrash_files_write(
        files: *mut RawFiles,
        descriptor: u64,
        offset: u64,
        bytes: *const u8,
        len: usize,
    ) -> u32;
    pub(crate) fn blobcrash_files_read(
        files: *mut RawFiles,
        descriptor: u64,
        offset: u64,
        into: *mut u8,
        capacity: usize,
    ) -> Ran;
    pub(crate) fn blobcrash_files_name(
        files: *mut RawFiles,
        index: usize,
        into: *mut u8,
        capacity: usize,
    ) -> Reply;
    pub(crate) fn blobcrash_files_kept_run(
        files: *mut RawFiles,
        row: usize,
        from: usize,
    ) -> KeptRun;
    pub(crate) fn blobcrash_files_kept_place(files: *mut RawFiles, row: usize) -> Reply;
    pub(crate) fn blobcrash_files_kept_edit(files: *mut RawFiles, index: usize) -> Ran;
    pub(crate) fn blobcrash_files_effect(kind: u32) -> u32;
    pub(crate) fn blobcrash_files_line_of(
        asked: *const RawCall,
        path: *const u8,
        path_len: usize,
        to: *const u8,
        to_len: usize,
        into: *mut u8,
        capacity: usize,
    ) -> Ran;
    pub(crate) fn blobcrash_files_power_off_after(files: *mut RawFiles, calls: u64) -> u32;
    pub(crate) fn blobcrash_files_power_on(files: *mut RawFiles) -> u32;
    pub(crate) fn blobcrash_files_power(files: *mut RawFiles) -> PowerState;
    pub(crate) fn blobcrash_files_words_left(files: *mut RawFiles) -> Ran;
    pub(crate) fn blobcrash_files_push_words(
        files: *mut RawFiles,
        words: *const u64,
        count: usize,
    ) -> u32;
    pub(crate) fn blobcrash_files_close(files: *mut RawFiles);
}

#[cfg(test)]
mod tests {
    use super::*;
    use crate::foreign::tests::{check_kinds, enumerators};

    #[test]
    fn kinds_are_those_of_the_header() {
        let header = enumerators(include_str!("../../../c/blobcrash_files.h"));
        check_kinds(&header, "F_", Kind::ALL);
    }
}
