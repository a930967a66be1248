//! A record, its version table, its two buffers and the calls of the library on them, as a program of
//! lines. The forms are the model's; every answer is the library's, and what is shown is read here
//! from the record, the table and the bytes, by document 01.

use crate::grammar;
use model::calls::{Answer, Call, Refusal};
use model::forms::{answer_text, hex, Form, Put, Show, LINE_REFUSED};
use wellcherry::{Head, Progress, Record, Versions, CELLS, CLIENTS, COMMITTED_ROW, DATA_ROW};

/// No store has more rows.
const MOST_ROWS: usize = 1_024;
/// What lies in memory before a set-up, which has to replace it all.
const OLD: u32 = 0xa5a5_a5a5;

/// A record of no set-up, with no zero in it.
pub const OLD_RECORD: Record = Record {
    head: Head {
        rows: OLD,
        limit: OLD,
        issued: OLD,
        requested: OLD,
        taken: OLD,
        last: OLD,
        used: OLD,
        entries: OLD,
    },
    stage: [OLD; CLIENTS],
    number: [OLD; CLIENTS],
    snapshot: [OLD; CLIENTS],
    request: [OLD; CLIENTS],
    commit: [OLD; CLIENTS],
    request_waits: [u64::MAX; CLIENTS],
    commit_waits: [u64::MAX; CLIENTS],
};

/// A version table of no set-up, with no zero in it.
pub const OLD_VERSIONS: Versions = [OLD; CELLS];

/// A buffer of so many bytes, none of them 0.
pub fn old_bytes(length: usize) -> Vec<u8> {
    vec![OLD as u8; length]
}

/// A record, the version table and the buffers that it is used with.
#[derive(Clone, PartialEq, Eq)]
pub struct Desk {
    pub record: Record,
    pub versions: Versions,
    pub data: Vec<u8>,
    pub committed: Vec<u8>,
}

/// Before a set-up.
impl Default for Desk {
    fn default() -> Desk {
        let (data, committed) = (Vec::new(), Vec::new());
        Desk { record: Record::NONE, versions: [0; CELLS], data, committed }
    }
}

impl Desk {
    /// Answers one line; neither has a newline.
    pub fn answer_line(&mut self, line: &[u8]) -> String {
        match grammar().parse(line) {
            Some(form) => answer_text(&form, &self.obey(&form)),
            None => LINE_REFUSED.to_string(),
        }
    }

    /// Obeys a form.
    pub fn obey(&mut self, form: &Form) -> Answer {
        match form {
            Form::SetUp { rows, first_w, limit } => self.set_up(*rows as usize, *first_w, *limit),
            Form::Call(call) => self.call(call),
            Form::ReadOften { client, cell, times } => {
                let read = Call::Read { client: *client, cell: *cell };
                (1..*times).for_each(|_| drop(self.call(&read)));
                self.call(&read)
            }
            Form::Put(put) => {
                let result = if self.put(put) { "(put)" } else { "(refused 2)" };
                Answer::Shown(format!("({} {result})", put.keyword()))
            }
            Form::Show(show) => Answer::Shown(self.show(*show)),
            Form::Panel { .. } => not_landed(),
        }
    }

    /// A new store in new memory. A refused set-up keeps the old one.
    fn set_up(&mut self, rows: usize, first: u32, limit: u32) -> Answer {
        // Any number of rows that is too large is as good as any other.
        let rows = rows.min(MOST_ROWS + 1);
        let mut new = Desk {
            record: OLD_RECORD,
            versions: OLD_VERSIONS,
            data: old_bytes(rows * DATA_ROW),
            committed: old_bytes(rows * COMMITTED_ROW),
        };
        let figure = new.set_up_in_place(first, limit);
        if figure.is_ok() {
            *self = new;
        }
        told(figure, Answer::Free)
    }

    /// A set-up of whatever memory there is.
    pub fn set_up_in_place(&mut self, first: u32, limit: u32) -> Result<u32, u32> {
        let Desk { record, versions, data, committed } = self;
        record.set_up(data, committed, versions, first, limit)
    }

    /// A call of the library.
    pub fn call(&mut self, call: &Call) -> Answer {
        let Desk { record, versions, data, committed } = self;
        match call {
            Call::Begin { client } => told(record.begin(data, committed, *client), began),
            Call::Read { client, cell } => {
                told(record.read(data, committed, versions, *client, *cell), found)
            }
            Call::Write { client, cell, value } => {
                told(record.write(data, committed, *client, *cell, value), Answer::Free)
            }
            Call::Advance { client } => told(record.advance(data, committed, *client), advanced),
            Call::Abandon { client } => {
                told(record.abandon(data, committed, *client), Answer::Free)
            }
            Call::Trim => told(record.trim(data, committed), Answer::Dropped),
            Call::Free => told(record.free(data, committed), Answer::Free),
            _ => not_landed(),
        }
    }
}

fn began((number, snapshot): (u32, u32)) -> Answer {
    Answer::Began { number, snapshot }
}

fn found(value: Option<&[u8]>) -> Answer {
    match value {
        Some(value) => Answer::Value(value.try_into().expect("sixteen bytes"), None),
        None => Answer::Unwritten,
    }
}

fn advanced(progress: Progress) -> Answer {
    match progress {
        Progress::Stage(stage) => Answer::Stage(stage.try_into().expect("1 to 13")),
        Progress::Waiting(left) => Answer::Waiting(left),
        Progress::Conflict(commit) => Answer::Conflict(commit),
        Progress::Done(commit) => Answer::Done(commit),
    }
}

fn told<A>(given: Result<A, u32>, answer: impl FnOnce(A) -> Answer) -> Answer {
    let refused = |number| Refusal::from_number(number).expect("a refusal of the papers");
    given.map_or_else(|number| Answer::Refused(refused(number)), answer)
}

fn not_landed() -> ! {
    unreachable!("a form of a ticket that the library has not")
}

// ------------------------------------------------------------- the record and the bytes

/// The bytes of a data row: tag (4), cell (2), zero (2), value (16).
pub fn data_row(tag: u32, cell: u32, value: &[u8; 16]) -> Vec<u8> {
    let cell = u16::try_from(cell).expect("16 bits");
    [&tag.to_le_bytes()[..], &cell.to_le_bytes(), &[0, 0], value].concat()
}

/// The bytes of a committed row: commit number (4), tag (4).
pub fn committed_row(commit: u32, tag: u32) -> Vec<u8> {
    [commit.to_le_bytes(), tag.to_le_bytes()].concat()
}

fn number(bytes: &[u8]) -> u32 {
    bytes.iter().rev().fold(0, |number, byte| number << 8 | u32::from(*byte))
}

/// Puts a row behind the last one in use, if there is room.
fn append(buffer: &mut [u8], used: &mut u32, row: &[u8]) -> bool {
    let at = *used as usize * row.len();
    let Some(place) = buffer.get_mut(at..at + row.len()) else { return false };
    place.copy_from_slice(row);
    *used += 1;
    true
}

impl Desk {
    /// Puts something into the store by hand, if there is room for it.
    fn put(&mut self, put: &Put) -> bool {
        let head = &mut self.record.head;
        match put {
            Put::Data { tag, cell, value } => {
                append(&mut self.data, &mut head.used, &data_row(*tag, *cell, value))
            }
            Put::Committed { commit, tag } => {
                append(&mut self.committed, &mut head.entries, &committed_row(*commit, *tag))
            }
            Put::Last(_) if head.rows == 0 => false,
            Put::Last(commit) => {
                head.last = *commit;
                true
            }
            Put::Version { cell, entry } => {
                self.versions[*cell as usize] = *entry;
                true
            }
        }
    }

    fn open(&self) -> impl Iterator<Item = usize> + '_ {
        (0..CLIENTS).filter(|client| self.record.number[*client] != 0)
    }

    /// What the record or the buffers hold, as one line.
    fn show(&self, show: Show) -> String {
        let house = &self.record;
        let parts: Vec<String> = match show {
            Show::Record => self.figures().map(|(name, n)| format!(" ({name} {n})")).to_vec(),
            Show::Clients => {
                let told = |k: usize| {
                    let (number, snapshot) = (house.number[k], house.snapshot[k]);
                    let (stage, request, commit) =
                        (house.stage[k], house.request[k], house.commit[k]);
                    format!(" ({k} {number} {snapshot} {stage} {request} {commit})")
                };
                self.open().map(told).collect()
            }
            Show::Data => {
                let rows = self.data.chunks(DATA_ROW).take(house.head.used as usize);
                let told = |row: &[u8]| {
                    format!(" ({} {} {})", number(&row[..4]), number(&row[4..6]), hex(&row[8..]))
                };
                rows.map(told).collect()
            }
            Show::Committed => {
                let rows = self.committed.chunks(COMMITTED_ROW);
                let told = |row: &[u8]| format!(" ({} {})", number(&row[..4]), number(&row[4..]));
                rows.take(house.head.entries as usize).map(told).collect()
            }
            Show::Versions => {
                let set = self.versions.iter().enumerate().filter(|(_, entry)| **entry > 0);
                set.map(|(cell, entry)| format!(" ({cell} {entry})")).collect()
            }
            Show::Counts | Show::Names => not_landed(),
        };
        format!("({}{})", show.keyword(), parts.concat())
    }

    fn figures(&self) -> [(&'static str, u32); 9] {
        let n = &self.record.head;
        let low = self.open().map(|client| self.record.snapshot[client]).min().unwrap_or(n.last);
        [
            ("rows", n.rows),
            ("limit", n.limit),
            ("w", n.issued),
            ("r", n.requested),
            ("c", n.taken),
            ("last", n.last),
            ("data", n.used),
            ("committed", n.entries),
            ("low", low),
        ]
    }
}
