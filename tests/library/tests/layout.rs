//! The layout of record, results and rows, from all three sides: the C header, the crate's mirrors
//! of its structs, and the library, which has no header but what it does to the memory it is lent.

use library::beside::difference;
use library::desk::{committed_row, data_row, Desk, OLD_RECORD, OLD_VERSIONS};
use std::mem::{offset_of, size_of};
use std::path::Path;
use std::process::Command;
use wellcherry::raw::{AdvanceGiven, BeginGiven, FigureGiven, ReadGiven};
use wellcherry::{Head, Progress, Record, CELLS, CLIENTS, COMMITTED_ROW, DATA_ROW, VALUE, VALUE_AT};

// ------------------------------------------------------------------- the header and the mirrors

/// What layout.c prints for a struct, by the crate's mirror of it.
macro_rules! mirror {
    ($name:literal, $mirror:ident: $($field:ident)+) => {
        [
            format!("{} {}", $name, size_of::<$mirror>()),
            $(
                format!(
                    "{} {} {} {}",
                    $name,
                    stringify!($field),
                    offset_of!($mirror, $field),
                    size_of_field(|whole: &$mirror| &whole.$field),
                ),
            )+
        ]
        .join("\n")
    };
}

fn size_of_field<S, F>(_: fn(&S) -> &F) -> usize {
    size_of::<F>()
}

fn mirrors() -> String {
    let constants = [
        ("CLIENTS", CLIENTS),
        ("CELLS", CELLS),
        ("VALUE", VALUE),
        ("DATA_ROW", DATA_ROW),
        ("COMMITTED_ROW", COMMITTED_ROW),
        ("VALUE_AT", VALUE_AT),
    ];
    let parts = [
        mirror!("wellcherry_head", Head:
            rows limit issued requested taken last used entries),
        mirror!("wellcherry_record", Record:
            head stage number snapshot request commit request_waits commit_waits),
        mirror!("wellcherry_figure_given", FigureGiven: refusal figure),
        mirror!("wellcherry_begin_given", BeginGiven: refusal number snapshot),
        mirror!("wellcherry_read_given", ReadGiven: refusal found row),
        mirror!("wellcherry_advance_given", AdvanceGiven: refusal progress number),
        constants.map(|(name, number)| format!("WELLCHERRY_{name} {number}")).join("\n"),
    ];
    parts.join("\n") + "\n"
}

/// What layout.c prints, compiled with the C compiler of the house.
fn header() -> String {
    let here = Path::new(env!("CARGO_MANIFEST_DIR"));
    let program = Path::new(env!("CARGO_TARGET_TMPDIR")).join("layout");
    let compiled = Command::new("cc")
        .args(["-std=c99", "-Wall", "-Wextra", "-pedantic", "-Wconversion", "-Werror", "-I"])
        .args([here.join("../../c"), here.join("tests/layout.c"), "-o".into(), program.clone()])
        .status();
    assert!(compiled.expect("a C compiler").success());
    let printed = Command::new(program).output().expect("layout runs").stdout;
    String::from_utf8(printed).expect("text")
}

#[test]
fn the_mirrors_are_the_headers_structs() {
    assert_eq!(header(), mirrors());
}

// ------------------------------------------------------------------- the library

/// A fit record of four rows whose words are all different, as far as stages allow, with a closed
/// client.
fn different_words(closed: usize) -> Record {
    let mut words = 1_000..;
    let mut next = || words.next().expect("many more");
    let mut record = Record {
        head: Head {
            rows: 4,
            limit: next(),
            issued: next(),
            requested: next(),
            taken: next(),
            last: next(),
            used: 3,
            entries: 2,
        },
        stage: std::array::from_fn(|client| 1 + client as u32 % 13),
        number: std::array::from_fn(|_| next()),
        snapshot: std::array::from_fn(|_| next()),
        request: std::array::from_fn(|_| next()),
        commit: std::array::from_fn(|_| next()),
        request_waits: std::array::from_fn(|_| u64::from(next()) << 32 | u64::from(next())),
        commit_waits: std::array::from_fn(|_| u64::from(next()) << 32 | u64::from(next())),
    };
    record.number[closed] = 0;
    record
}

/// A Begin of each client changes the words of that client that the header names, and no other.
#[test]
fn a_begin_of_each_client() {
    for k in 0..CLIENTS {
        let (data, committed) = (vec![7; 4 * DATA_ROW], vec![7; 4 * COMMITTED_ROW]);
        let (record, versions) = (different_words(k), OLD_VERSIONS);
        let mut desk = Desk { record, versions, data, committed };
        let mut due = desk.clone();
        due.record.head.issued += 1;
        due.record.stage[k] = 0;
        due.record.number[k] = due.record.head.issued;
        due.record.snapshot[k] = due.record.head.last;
        due.record.request[k] = 0;
        due.record.commit[k] = 0;
        due.record.request_waits[k] = 0;
        due.record.commit_waits[k] = 0;
        let began = desk.record.begin(&desk.data, &desk.committed, k as u32);
        assert_eq!(began, Ok((due.record.number[k], due.record.snapshot[k])), "client {k}");
        assert_eq!(difference(&desk, &due), None, "client {k}");
    }
}

/// The rows of a commit, written out byte by byte: little-endian, tag 01020304, cell 0305.
#[test]
fn the_bytes_of_rows() {
    let value: [u8; VALUE] = std::array::from_fn(|at| 0xf0 + at as u8);
    let (mut record, data, committed) = (OLD_RECORD, &mut [1; 2 * DATA_ROW], &mut [1; 16]);
    let versions = &mut [1; CELLS];
    assert_eq!(record.set_up(data, committed, versions, 0x0102_0304, 1), Ok(2));
    assert_eq!(*versions, [0; CELLS]);
    assert_eq!(record.begin(data, committed, 63), Ok((0x0102_0304, 0)));
    assert_eq!(record.write(data, committed, 63, 0x0305, &value), Ok(1));
    for stage in 1..=13 {
        assert_eq!(record.advance(data, committed, 63), Ok(Progress::Stage(stage)));
    }
    assert_eq!(record.advance(data, committed, 63), Ok(Progress::Done(1)));
    // A read of the next transaction leaves the commit in the entry of that cell alone.
    assert_eq!(record.begin(data, committed, 0), Ok((0x0102_0305, 1)));
    assert_eq!(record.read(data, committed, versions, 0, 0x0305), Ok(Some(&value[..])));
    assert_eq!(*versions, std::array::from_fn(|cell| u32::from(cell == 0x0305)));
    let row = [4, 3, 2, 1, 5, 3, 0, 0].into_iter().chain(value).collect::<Vec<u8>>();
    assert_eq!(data[..], [&row[..], &[0; DATA_ROW]].concat());
    assert_eq!(*committed, [1, 0, 0, 0, 4, 3, 2, 1, 0, 0, 0, 0, 0, 0, 0, 0]);
    // The desk's own reading of document 01 is the same.
    assert_eq!(data_row(0x0102_0304, 0x0305, &value), row);
    assert_eq!(committed_row(1, 0x0102_0304), committed[..COMMITTED_ROW]);
}
