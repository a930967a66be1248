//! A store held by the tool: record, version table and buffers, and a form answered on them by the
//! library.

use crate::forms::Form;
use std::fmt;
use wellcherry::{Progress, Record, Versions, CELLS, CLIENTS, COMMITTED_ROW, DATA_ROW, VALUE};

/// What a call gives.
#[derive(Clone, Copy, Debug, PartialEq, Eq)]
#[allow(missing_docs)]
pub enum Given {
    Free(u32),
    Begun { number: u32, snapshot: u32 },
    Value([u8; VALUE]),
    Unwritten,
    Came(Progress),
    Dropped(u32),
}

/// What a call gives, or the number of its refusal.
pub type Answer = Result<Given, u32>;

/// The refusal of a line that is no form.
const NO_FORM: u32 = 13;
/// The refusal of a set-up.
const BAD_SET_UP: u32 = 1;
const MOST_ROWS: u32 = 1024;

/// Record, version table and buffers.
#[derive(Clone)]
pub struct House {
    record: Record,
    versions: Versions,
    data: Vec<u8>,
    committed: Vec<u8>,
}

impl House {
    /// Before any set-up.
    pub const NONE: House = House {
        record: Record::NONE,
        versions: [0; CELLS],
        data: Vec::new(),
        committed: Vec::new(),
    };

    /// The library's answer to a form.
    pub fn answer(&mut self, form: &Form) -> Answer {
        let House { record, versions, data, committed } = self;
        match *form {
            Form::SetUp { rows, first, limit } => self.set_up(rows, first, limit),
            Form::Begin { client } => record
                .begin(data, committed, client)
                .map(|(number, snapshot)| Given::Begun { number, snapshot }),
            Form::Read { client, cell } => {
                record.read(data, committed, versions, client, cell).map(reading)
            }
            Form::Write { client, cell, value } => {
                record.write(data, committed, client, cell, &value).map(Given::Free)
            }
            Form::Advance { client } => record.advance(data, committed, client).map(Given::Came),
            Form::Abandon { client } => record.abandon(data, committed, client).map(Given::Free),
            Form::Trim => record.trim(data, committed).map(Given::Dropped),
            Form::Free => record.free(data, committed).map(Given::Free),
            Form::Other => Err(NO_FORM),
        }
    }

    /// A refused set-up leaves the store as it was.
    fn set_up(&mut self, rows: u32, first: u32, limit: u32) -> Answer {
        if rows > MOST_ROWS {
            return Err(BAD_SET_UP);
        }
        let rows = rows as usize;
        let (data, committed) = (vec![0; rows * DATA_ROW], vec![0; rows * COMMITTED_ROW]);
        let mut new = House { data, committed, ..House::NONE };
        let House { record, versions, data, committed } = &mut new;
        let free = record.set_up(data, committed, versions, first, limit)?;
        *self = new;
        Ok(Given::Free(free))
    }

    /// The stage of an open client.
    pub fn stage(&self, client: u32) -> Option<u32> {
        let client = client as usize;
        let is_open = self.record.number.get(client).is_some_and(|&number| number != 0);
        is_open.then(|| self.record.stage[client])
    }

    /// The open clients, with their stages.
    pub fn open(&self) -> Vec<(u32, u32)> {
        (0..CLIENTS as u32).filter_map(|client| Some((client, self.stage(client)?))).collect()
    }

    /// The waiting list of an open client, as it stands in the record: the one before the check
    /// or the one before the commit, of which one at most has entries.
    pub fn waits(&self, client: u32) -> u64 {
        self.record.request_waits[client as usize] | self.record.commit_waits[client as usize]
    }

    /// The number of the last commit.
    pub fn last_commit(&self) -> u32 {
        self.record.head.last
    }

    /// The cells of the data rows that an open client has written.
    pub fn cells(&self, client: u32) -> Vec<u32> {
        let tag = self.record.number[client as usize].to_le_bytes();
        let used = self.record.head.used as usize;
        let rows = self.data.chunks_exact(DATA_ROW).take(used).filter(|row| row[..4] == tag);
        rows.map(|row| u32::from(u16::from_le_bytes([row[4], row[5]]))).collect()
    }
}

fn reading(value: Option<&[u8]>) -> Given {
    value.map_or(Given::Unwritten, |bytes| {
        Given::Value(bytes.try_into().expect("a value has sixteen bytes"))
    })
}

/// The result in its inner brackets, as the step program prints it.
impl fmt::Display for Given {
    fn fmt(&self, out: &mut fmt::Formatter) -> fmt::Result {
        match self {
            Given::Free(rows) => write!(out, "(free {rows})"),
            Given::Begun { number, snapshot } => {
                write!(out, "(number {number}) (snapshot {snapshot})")
            }
            Given::Value(bytes) => {
                write!(out, "(value ")?;
                bytes.iter().try_for_each(|byte| write!(out, "{byte:02x}"))?;
                write!(out, ")")
            }
            Given::Unwritten => write!(out, "(unwritten)"),
            Given::Came(Progress::Stage(stage)) => write!(out, "(stage {stage})"),
            Given::Came(Progress::Waiting(count)) => write!(out, "(waiting {count})"),
            Given::Came(Progress::Conflict(commit)) => write!(out, "(conflict {commit})"),
            Given::Came(Progress::Done(commit)) => write!(out, "(done {commit})"),
            Given::Dropped(rows) => write!(out, "(dropped {rows})"),
        }
    }
}

/// The line that the step program prints, without its newline.
pub fn answer_line(form: &Form, answer: &Answer) -> String {
    match answer {
        Ok(given) => format!("({form} {given})"),
        Err(refusal) => format!("({form} (refused {refusal}))"),
    }
}
