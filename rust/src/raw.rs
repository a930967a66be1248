//! The exported functions as they are: the record in its parts, each behind a pointer.
#![allow(missing_docs)]

/// How many clients there are.
pub const CLIENTS: usize = 64;
/// How many cells there are, and entries of a version table.
pub const CELLS: usize = 1024;

/// The numbers of a record.
#[repr(C)]
#[derive(Clone, Copy, Debug, PartialEq, Eq)]
pub struct Head {
    pub rows: u32,
    pub limit: u32,
    pub issued: u32,
    pub requested: u32,
    pub taken: u32,
    pub last: u32,
    pub used: u32,
    pub entries: u32,
}

/// The record, as `struct wellcherry_record` of C has it.
#[repr(C)]
#[derive(Clone, Copy, Debug, PartialEq, Eq)]
pub struct Record {
    pub head: Head,
    pub stage: [u32; CLIENTS],
    pub number: [u32; CLIENTS],
    pub snapshot: [u32; CLIENTS],
    pub request: [u32; CLIENTS],
    pub commit: [u32; CLIENTS],
    pub request_waits: [u64; CLIENTS],
    pub commit_waits: [u64; CLIENTS],
}

#[repr(C)]
pub struct FigureGiven {
    pub refusal: u32,
    pub figure: u32,
}

#[repr(C)]
pub struct BeginGiven {
    pub refusal: u32,
    pub number: u32,
    pub snapshot: u32,
}

#[repr(C)]
pub struct ReadGiven {
    pub refusal: u32,
    pub found: u32,
    pub row: usize,
}

#[repr(C)]
pub struct AdvanceGiven {
    pub refusal: u32,
    pub progress: u32,
    pub number: u32,
}

extern "C" {
    pub fn wellcherry_call_set_up(
        head: *mut Head,
        stage: *mut u32,
        number: *mut u32,
        snapshot: *mut u32,
        request: *mut u32,
        commit: *mut u32,
        request_waits: *mut u64,
        commit_waits: *mut u64,
        data: *mut u8,
        data_bytes: usize,
        committed: *mut u8,
        committed_bytes: usize,
        versions: *mut u32,
        first: u32,
        limit: u32,
    ) -> FigureGiven;
    pub fn wellcherry_call_begin(
        head: *mut Head,
        stage: *mut u32,
        number: *mut u32,
        snapshot: *mut u32,
        request: *mut u32,
        commit: *mut u32,
        request_waits: *mut u64,
        commit_waits: *mut u64,
        data: *const u8,
        data_bytes: usize,
        committed: *const u8,
        committed_bytes: usize,
        client: u32,
    ) -> BeginGiven;
    pub fn wellcherry_call_read(
        head: *const Head,
        stage: *const u32,
        number: *const u32,
        snapshot: *const u32,
        data: *const u8,
        data_bytes: usize,
        committed: *const u8,
        committed_bytes: usize,
        versions: *mut u32,
        version_count: usize,
        client: u32,
        cell: u32,
    ) -> ReadGiven;
    pub fn wellcherry_call_write(
        head: *mut Head,
        stage: *const u32,
        number: *const u32,
        data: *mut u8,
        data_bytes: usize,
        committed: *const u8,
        committed_bytes: usize,
        client: u32,
        cell: u32,
        value: *const u8,
        value_bytes: usize,
    ) -> FigureGiven;
    pub fn wellcherry_call_advance(
        head: *mut Head,
        stage: *mut u32,
        number: *mut u32,
        snapshot: *mut u32,
        request: *mut u32,
        commit: *mut u32,
        request_waits: *mut u64,
        commit_waits: *mut u64,
        data: *mut u8,
        data_bytes: usize,
        committed: *mut u8,
        committed_bytes: usize,
        client: u32,
    ) -> AdvanceGiven;
    pub fn wellcherry_call_abandon(
        head: *mut Head,
        stage: *mut u32,
        number: *mut u32,
        snapshot: *mut u32,
        request: *mut u32,
        commit: *mut u32,
        request_waits: *mut u64,
        commit_waits: *mut u64,
        data: *mut u8,
        data_bytes: usize,
        committed: *const u8,
        committed_bytes: usize,
        client: u32,
    ) -> FigureGiven;
    pub fn wellcherry_call_trim(
        head: *mut Head,
        stage: *const u32,
        number: *const u32,
        snapshot: *const u32,
        data: *mut u8,
        data_bytes: usize,
        committed: *mut u8,
        committed_bytes: usize,
    ) -> FigureGiven;
    pub fn wellcherry_call_free(
        head: *const Head,
        stage: *const u32,
        data: *const u8,
        data_bytes: usize,
        committed: *const u8,
        committed_bytes: usize,
    ) -> FigureGiven;
}
