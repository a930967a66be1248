//! What the exported functions hand back where they refuse: the number of the refusal, and zeros
//! for all that they give.

use library::desk::{old_bytes, OLD_RECORD};
use wellcherry::raw::{self, AdvanceGiven, BeginGiven, FigureGiven};
use wellcherry::{Record, CELLS, COMMITTED_ROW, DATA_ROW};

const ROWS: usize = 2;

/// A call of the raw function on a house of its own, with the columns that it takes and a data
/// buffer of so many bytes.
macro_rules! given {
    ($call:ident [$($column:ident)+] $length:ident $($argument:expr),*) => {{
        let (mut record, mut data, mut committed) = house();
        data.truncate($length);
        unsafe {
            raw::$call(
                &mut record.head,
                $(record.$column.as_mut_ptr(),)+
                data.as_mut_ptr(),
                data.len(),
                committed.as_mut_ptr(),
                committed.len(),
                $($argument),*
            )
        }
    }};
}

fn figure(given: FigureGiven) -> (u32, [u32; 2]) {
    (given.refusal, [given.figure, 0])
}

fn begun(given: BeginGiven) -> (u32, [u32; 2]) {
    (given.refusal, [given.number, given.snapshot])
}

fn advanced(given: AdvanceGiven) -> (u32, [u32; 2]) {
    (given.refusal, [given.progress, given.number])
}

/// A store with client 0 at work on cell 5 and no other, and its buffers.
fn house() -> (Record, Vec<u8>, Vec<u8>) {
    let (mut record, value) = (OLD_RECORD, [9; 16]);
    let (mut data, mut committed) = (old_bytes(ROWS * DATA_ROW), old_bytes(ROWS * COMMITTED_ROW));
    record.set_up(&mut data, &mut committed, &mut [1; CELLS], 7, 0).expect("a set-up");
    record.begin(&data, &committed, 0).expect("a begin");
    record.write(&mut data, &committed, 0, 5, &value).expect("a write");
    (record, data, committed)
}

/// What each call hands back: trim, free, begin, then those that need an open client.
fn all_given(client: u32, length: usize) -> [(u32, [u32; 2]); 7] {
    let (value, mut versions) = ([1; 16], [0; CELLS]);
    let read = given!(wellcherry_call_read
        [stage number snapshot] length versions.as_mut_ptr(), versions.len(), client, 5);
    [
        figure(given!(wellcherry_call_trim [stage number snapshot] length)),
        figure(given!(wellcherry_call_free [stage] length)),
        begun(given!(wellcherry_call_begin
            [stage number snapshot request commit request_waits commit_waits] length client)),
        (read.refusal, [read.found, read.row as u32]),
        figure(given!(wellcherry_call_write
            [stage number] length client, 5, value.as_ptr(), value.len())),
        advanced(given!(wellcherry_call_advance
            [stage number snapshot request commit request_waits commit_waits] length client)),
        figure(given!(wellcherry_call_abandon
            [stage number snapshot request commit request_waits commit_waits] length client)),
    ]
}

#[test]
fn refused_calls_hand_back_zeros() {
    let refused = |number| (number, [0, 0]);
    let right = ROWS * DATA_ROW;
    assert_eq!(all_given(0, right - 1), [refused(2); 7]);
    assert_eq!(all_given(64, right)[2..], [refused(3); 5]);
    assert_eq!(all_given(0, right)[2], refused(5));
    assert_eq!(all_given(1, right)[3..], [refused(6); 4]);
}

/// A refused set-up too, and its record and its version table are all zeros.
#[test]
fn a_refused_set_up() {
    let (mut record, mut data, mut committed) = house();
    let mut versions = [1; CELLS];
    let given = unsafe {
        raw::wellcherry_call_set_up(
            &mut record.head,
            record.stage.as_mut_ptr(),
            record.number.as_mut_ptr(),
            record.snapshot.as_mut_ptr(),
            record.request.as_mut_ptr(),
            record.commit.as_mut_ptr(),
            record.request_waits.as_mut_ptr(),
            record.commit_waits.as_mut_ptr(),
            data.as_mut_ptr(),
            data.len(),
            committed.as_mut_ptr(),
            committed.len(),
            versions.as_mut_ptr(),
            0,
            0,
        )
    };
    assert_eq!(figure(given), (1, [0, 0]));
    assert_eq!(record, Record::NONE);
    assert_eq!(versions, [0; CELLS]);
}
