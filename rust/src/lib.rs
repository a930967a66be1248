//! The house store for Rust programs: the calls of libwellcherry.a on a record, a version
//! table and two buffers that the caller holds. Answers are the papers': a refusal is its number. What
//! each call does stands in c/wellcherry.h.
#![warn(missing_docs)]

pub mod raw;

pub use raw::{Head, Record, CELLS, CLIENTS};

/// Bytes of a data row.
pub const DATA_ROW: usize = 24;
/// Bytes of a committed row.
pub const COMMITTED_ROW: usize = 8;
/// Bytes of a value.
pub const VALUE: usize = 16;
/// Where in its data row a value stands.
pub const VALUE_AT: usize = 8;

/// A version table: an entry for each cell, the newest commit that reads have found.
pub type Versions = [u32; CELLS];

/// What an Advance comes to.
#[derive(Clone, Copy, Debug, PartialEq, Eq)]
pub enum Progress {
    /// One step on: the new stage.
    Stage(u32),
    /// No step yet: how many transactions are still waited for.
    Waiting(u32),
    /// Closed, its writes gone: the smallest conflicting commit number.
    Conflict(u32),
    /// Finished: its commit number, or its snapshot's where it wrote nothing.
    Done(u32),
}

/// What a call gives, or the number of its refusal.
pub type Answer<A> = Result<A, u32>;

fn answered<A>(refusal: u32, given: A) -> Answer<A> {
    if refusal == 0 {
        Ok(given)
    } else {
        Err(refusal)
    }
}

/// A call that is lent the whole record, and what comes behind it.
macro_rules! on_record {
    ($call:ident, $record:expr, $($behind:expr),*) => {
        // SAFETY: each pointer is to memory of the length that the call takes, lent for the call alone.
        unsafe {
            raw::$call(
                &mut $record.head,
                $record.stage.as_mut_ptr(),
                $record.number.as_mut_ptr(),
                $record.snapshot.as_mut_ptr(),
                $record.request.as_mut_ptr(),
                $record.commit.as_mut_ptr(),
                $record.request_waits.as_mut_ptr(),
                $record.commit_waits.as_mut_ptr(),
                $($behind),*
            )
        }
    };
}

impl Record {
    /// A record of zeros: before a set-up, every call on it is refused with 2.
    pub const NONE: Record = Record {
        head: Head {
            rows: 0,
            limit: 0,
            issued: 0,
            requested: 0,
            taken: 0,
            last: 0,
            used: 0,
            entries: 0,
        },
        stage: [0; CLIENTS],
        number: [0; CLIENTS],
        snapshot: [0; CLIENTS],
        request: [0; CLIENTS],
        commit: [0; CLIENTS],
        request_waits: [0; CLIENTS],
        commit_waits: [0; CLIENTS],
    };

    /// Set-up: a new record in this one's place, both buffers and the version table zeroed. Gives the free figure.
    pub fn set_up(
        &mut self,
        data: &mut [u8],
        committed: &mut [u8],
        versions: &mut Versions,
        first: u32,
        limit: u32,
    ) -> Answer<u32> {
        let given = on_record!(
            wellcherry_call_set_up,
            self,
            data.as_mut_ptr(),
            data.len(),
            committed.as_mut_ptr(),
            committed.len(),
            versions.as_mut_ptr(),
            first,
            limit
        );
        answered(given.refusal, given.figure)
    }

    /// Begin: the transaction's number and its snapshot.
    pub fn begin(&mut self, data: &[u8], committed: &[u8], client: u32) -> Answer<(u32, u32)> {
        let given = on_record!(
            wellcherry_call_begin,
            self,
            data.as_ptr(),
            data.len(),
            committed.as_ptr(),
            committed.len(),
            client
        );
        answered(given.refusal, (given.number, given.snapshot))
    }

    /// Read: in which data row the value stands; none for an unwritten cell. It may raise the cell's entry in the
    /// version table, which has to have [`CELLS`] entries.
    pub fn read_row(
        &self,
        data: &[u8],
        committed: &[u8],
        versions: &mut [u32],
        client: u32,
        cell: u32,
    ) -> Answer<Option<usize>> {
        let given = unsafe {
            raw::wellcherry_call_read(
                &self.head,
                self.stage.as_ptr(),
                self.number.as_ptr(),
                self.snapshot.as_ptr(),
                data.as_ptr(),
                data.len(),
                committed.as_ptr(),
                committed.len(),
                versions.as_mut_ptr(),
                versions.len(),
                client,
                cell,
            )
        };
        answered(given.refusal, ())?;
        Ok(match given.found {
            0 => None,
            1 => Some(given.row),
            other => unreachable!("there is no found {other}"),
        })
    }

    /// Read: the sixteen bytes as they stand in the data buffer.
    pub fn read<'a>(
        &self,
        data: &'a [u8],
        committed: &[u8],
        versions: &mut [u32],
        client: u32,
        cell: u32,
    ) -> Answer<Option<&'a [u8]>> {
        let row = self.read_row(data, committed, versions, client, cell)?;
        Ok(row.map(|row| &data[row * DATA_ROW + VALUE_AT..][..VALUE]))
    }

    /// Write: gives the free figure. The value has sixteen bytes.
    pub fn write(
        &mut self,
        data: &mut [u8],
        committed: &[u8],
        client: u32,
        cell: u32,
        value: &[u8],
    ) -> Answer<u32> {
        let given = unsafe {
            raw::wellcherry_call_write(
                &mut self.head,
                self.stage.as_ptr(),
                self.number.as_ptr(),
                data.as_mut_ptr(),
                data.len(),
                committed.as_ptr(),
                committed.len(),
                client,
                cell,
                value.as_ptr(),
                value.len(),
            )
        };
        answered(given.refusal, given.figure)
    }

    /// Advance: the one step that the client's stage calls for.
    pub fn advance(
        &mut self,
        data: &mut [u8],
        committed: &mut [u8],
        client: u32,
    ) -> Answer<Progress> {
        let given = on_record!(
            wellcherry_call_advance,
            self,
            data.as_mut_ptr(),
            data.len(),
            committed.as_mut_ptr(),
            committed.len(),
            client
        );
        match given.progress {
            0 => Err(given.refusal),
            1 => Ok(Progress::Stage(given.number)),
            2 => Ok(Progress::Waiting(given.number)),
            3 => Ok(Progress::Conflict(given.number)),
            4 => Ok(Progress::Done(given.number)),
            other => unreachable!("there is no progress {other}"),
        }
    }

    /// Abandon: gives the free figure.
    pub fn abandon(&mut self, data: &mut [u8], committed: &[u8], client: u32) -> Answer<u32> {
        let given = on_record!(
            wellcherry_call_abandon,
            self,
            data.as_mut_ptr(),
            data.len(),
            committed.as_ptr(),
            committed.len(),
            client
        );
        answered(given.refusal, given.figure)
    }

    /// Trim: gives how many data rows went.
    pub fn trim(&mut self, data: &mut [u8], committed: &mut [u8]) -> Answer<u32> {
        let given = unsafe {
            raw::wellcherry_call_trim(
                &mut self.head,
                self.stage.as_ptr(),
                self.number.as_ptr(),
                self.snapshot.as_ptr(),
                data.as_mut_ptr(),
                data.len(),
                committed.as_mut_ptr(),
                committed.len(),
            )
        };
        answered(given.refusal, given.figure)
    }

    /// Free: gives the free figure.
    pub fn free(&self, data: &[u8], committed: &[u8]) -> Answer<u32> {
        let given = unsafe {
            raw::wellcherry_call_free(
                &self.head,
                self.stage.as_ptr(),
                data.as_ptr(),
                data.len(),
                committed.as_ptr(),
                committed.len(),
            )
        };
        answered(given.refusal, given.figure)
    }
}
