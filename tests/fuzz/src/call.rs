//! The eight calls, made by the library and by the hand-written store.

use crate::house::House;
use baseline::{Progress as ByHand, Refusal, Versions};
use wellcherry::{Answer, Head, Progress, Record, DATA_ROW, VALUE_AT};

#[derive(Clone, Debug)]
pub enum Call {
    SetUp(u32, u32),
    Begin(u32),
    Read(u32, u32),
    Write(u32, u32, Vec<u8>),
    Advance(u32),
    Abandon(u32),
    Trim,
    Free,
}

/// What an answered call gives.
#[derive(Debug, PartialEq)]
pub enum Given {
    Figure(u32),
    Begun { number: u32, snapshot: u32 },
    Row(Option<usize>),
    Step(Progress),
}

impl Call {
    pub const NAMES: [&'static str; 8] =
        ["set-up", "begin", "read", "write", "advance", "abandon", "trim", "free"];

    pub fn name(&self) -> &'static str {
        let place = match self {
            Call::SetUp(..) => 0,
            Call::Begin(..) => 1,
            Call::Read(..) => 2,
            Call::Write(..) => 3,
            Call::Advance(..) => 4,
            Call::Abandon(..) => 5,
            Call::Trim => 6,
            Call::Free => 7,
        };
        Call::NAMES[place]
    }

    pub fn by_library(&self, house: &mut House) -> Answer<Given> {
        let House { record, versions, data, committed } = house;
        match *self {
            Call::SetUp(first, limit) => {
                record.set_up(data, committed, versions, first, limit).map(Given::Figure)
            }
            Call::Begin(client) => record
                .begin(data, committed, client)
                .map(|(number, snapshot)| Given::Begun { number, snapshot }),
            Call::Read(client, cell) => {
                record.read_row(data, committed, versions, client, cell).map(Given::Row)
            }
            Call::Write(client, cell, ref value) => {
                record.write(data, committed, client, cell, value).map(Given::Figure)
            }
            Call::Advance(client) => record.advance(data, committed, client).map(Given::Step),
            Call::Abandon(client) => record.abandon(data, committed, client).map(Given::Figure),
            Call::Trim => record.trim(data, committed).map(Given::Figure),
            Call::Free => record.free(data, committed).map(Given::Figure),
        }
    }

    pub fn by_hand(&self, house: &mut House) -> Answer<Given> {
        let mut record = to_hand(&house.record);
        let mut versions = Versions(house.versions);
        let given =
            self.on_hand_record(&mut record, &mut versions, &mut house.data, &mut house.committed);
        house.record = from_hand(&record);
        house.versions = versions.0;
        given.map_err(|refusal| refusal as u32)
    }

    fn on_hand_record(
        &self,
        record: &mut baseline::Record,
        versions: &mut Versions,
        data: &mut [u8],
        committed: &mut [u8],
    ) -> Result<Given, Refusal> {
        match *self {
            Call::SetUp(first, limit) => {
                let made = baseline::Record::set_up(data, committed, first, limit);
                *record = made.unwrap_or(baseline::Record::NONE);
                *versions = Versions::NEW;
                made.map(|made| Given::Figure(made.rows))
            }
            Call::Begin(client) => record
                .begin(data, committed, client)
                .map(|begun| Given::Begun { number: begun.number, snapshot: begun.snapshot }),
            Call::Read(client, cell) => {
                let found = record.read(versions, data, committed, client, cell)?;
                Ok(Given::Row(found.map(|found| row_of(data, found.value))))
            }
            Call::Write(client, cell, ref value) => {
                record.write(data, committed, client, cell, value).map(Given::Figure)
            }
            Call::Advance(client) => {
                record.advance(data, committed, client).map(|step| Given::Step(told(step)))
            }
            Call::Abandon(client) => record.abandon(data, committed, client).map(Given::Figure),
            Call::Trim => record.trim(data, committed).map(Given::Figure),
            Call::Free => record.free(data, committed).map(Given::Figure),
        }
    }
}

/// The data row in which a value stands that was found there.
fn row_of(data: &[u8], value: &[u8]) -> usize {
    (value.as_ptr() as usize - data.as_ptr() as usize - VALUE_AT) / DATA_ROW
}

fn told(step: ByHand) -> Progress {
    match step {
        ByHand::Stage(n) => Progress::Stage(n),
        ByHand::Waiting(n) => Progress::Waiting(n),
        ByHand::Conflict(n) => Progress::Conflict(n),
        ByHand::Done(n) => Progress::Done(n),
    }
}

fn to_hand(record: &Record) -> baseline::Record {
    let n = &record.head;
    baseline::Record {
        rows: n.rows,
        limit: n.limit,
        w: n.issued,
        r: n.requested,
        c: n.taken,
        last_commit: n.last,
        data_rows: n.used,
        committed_rows: n.entries,
        stage: record.stage,
        number: record.number,
        snapshot: record.snapshot,
        request: record.request,
        commit: record.commit,
        request_wait: record.request_waits,
        commit_wait: record.commit_waits,
        ..baseline::Record::NONE
    }
}

fn from_hand(record: &baseline::Record) -> Record {
    Record {
        head: Head {
            rows: record.rows,
            limit: record.limit,
            issued: record.w,
            requested: record.r,
            taken: record.c,
            last: record.last_commit,
            used: record.data_rows,
            entries: record.committed_rows,
        },
        stage: record.stage,
        number: record.number,
        snapshot: record.snapshot,
        request: record.request,
        commit: record.commit,
        request_waits: record.request_wait,
        commit_waits: record.commit_wait,
    }
}
