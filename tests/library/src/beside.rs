//! The library and the model side by side: after every form the answer, the whole record, every
//! entry of the version table and every byte of both buffers have to be alike.

use crate::desk::Desk;
use crate::grammar;
use model::calls::{Answer, Call};
use model::check::show;
use model::coverage::Coverage;
use model::forms::{answer_text, form_text, lines, Form};
use model::session::Session;
use model::store::{QueueRow, Store};
use std::collections::BTreeSet;
use wellcherry::{Head, Record, Versions, CELLS, CLIENTS};

/// The record that the model's store stands for.
fn record_of(store: &Store) -> Record {
    let mut record = Record {
        head: Head {
            rows: store.rows as u32,
            limit: store.limit,
            issued: store.w,
            requested: store.r,
            taken: store.c,
            last: store.last_commit,
            used: store.data.len() as u32,
            entries: store.committed.len() as u32,
        },
        ..Record::NONE
    };
    for (client, own) in &store.open {
        let k = *client as usize;
        record.stage[k] = u32::from(own.stage);
        record.number[k] = own.number;
        record.snapshot[k] = own.snapshot;
        record.request[k] = own.request.unwrap_or(0);
        record.commit[k] = own.commit.unwrap_or(0);
        record.request_waits[k] = set_of(&own.request_list, &store.requests);
        record.commit_waits[k] = set_of(&own.commit_list, &store.commits);
    }
    record
}

/// The clients that a waiting list names. The model keeps a transaction whose row is gone on its
/// list up to the next look; the record drops it with the row.
fn set_of(list: &BTreeSet<u32>, queue: &[QueueRow]) -> u64 {
    let named = queue.iter().filter(|row| list.contains(&row.tag));
    named.fold(0, |set, row| set | 1 << row.client)
}

/// The store as the model has it, for the library.
pub fn desk_of(store: &Store) -> Desk {
    let (data, committed) = (store.data_bytes(), store.committed_bytes());
    let versions = store.versions[..].try_into().expect("an entry for each cell");
    Desk { record: record_of(store), versions, data, committed }
}

/// The first thing in which a record with its buffers is not what is due.
pub fn difference(ours: &Desk, due: &Desk) -> Option<String> {
    if ours == due {
        return None;
    }
    different_word(&ours.record, &due.record)
        .or_else(|| different_entry(&ours.versions, &due.versions))
        .or_else(|| different_byte("data", &ours.data, &due.data))
        .or_else(|| different_byte("committed", &ours.committed, &due.committed))
}

fn different_word(ours: &Record, due: &Record) -> Option<String> {
    if ours.head != due.head {
        return Some(format!("the head: {:?}, not {:?}", ours.head, due.head));
    }
    let k = (0..CLIENTS).find(|k| columns(ours, *k) != columns(due, *k))?;
    let (ours, due) = (columns(ours, k), columns(due, k));
    Some(format!("client {k} in the record: {ours:?}, not {due:?}"))
}

/// A client's part of the record: stage, number, snapshot, request, commit, both lists.
fn columns(record: &Record, k: usize) -> [u64; 7] {
    let words = [
        record.stage[k],
        record.number[k],
        record.snapshot[k],
        record.request[k],
        record.commit[k],
    ];
    let [stage, number, snapshot, request, commit] = words.map(u64::from);
    let (waits, commit_waits) = (record.request_waits[k], record.commit_waits[k]);
    [stage, number, snapshot, request, commit, waits, commit_waits]
}

fn different_entry(ours: &Versions, due: &Versions) -> Option<String> {
    let cell = (0..CELLS).find(|cell| ours[*cell] != due[*cell])?;
    Some(format!("the entry of cell {cell}: {}, not {}", ours[cell], due[cell]))
}

fn different_byte(name: &str, ours: &[u8], due: &[u8]) -> Option<String> {
    if ours.len() != due.len() {
        return Some(format!("the {name} buffer has {} bytes, not {}", ours.len(), due.len()));
    }
    let at = (0..due.len()).find(|at| ours[*at] != due[*at])?;
    Some(format!("byte {at} of the {name} buffer: {}, not {}", ours[at], due[at]))
}

/// Both, what they have met, and how many forms they have obeyed.
pub struct Beside {
    desk: Desk,
    model: Session,
    pub met: Coverage,
    pub forms: usize,
}

impl Default for Beside {
    fn default() -> Beside {
        let (desk, model) = (Desk::default(), Session::under(grammar()));
        Beside { desk, model, met: Coverage::under(grammar()), forms: 0 }
    }
}

impl Beside {
    /// The model's store, which is the library's too.
    pub fn store(&self) -> &Store {
        self.model.store()
    }

    /// A whole script from before its first set-up on. What was met before stays counted.
    pub fn script(&mut self, name: &str, text: &[u8]) {
        (self.desk, self.model) = (Desk::default(), Session::under(grammar()));
        for (at, line) in lines(text).into_iter().enumerate() {
            if let Err(found) = self.line(line) {
                panic!("{name}, line {}: {}: {found}", at + 1, show(line));
            }
        }
    }

    /// A line, answered by both.
    fn line(&mut self, line: &[u8]) -> Result<(), String> {
        match grammar().parse(line) {
            Some(form) => self.compared(&form).map(|_| ()),
            None => {
                self.met.note_bad_line();
                alike(&self.desk.answer_line(line), &self.model.answer_line(line))
            }
        }
    }

    /// A form, obeyed by both.
    fn compared(&mut self, form: &Form) -> Result<Answer, String> {
        let stage = match form {
            Form::Call(call) => call.client().and_then(|client| self.store().stage(client)),
            _ => None,
        };
        let (answer, due) = (self.desk.obey(form), self.model.obey(form));
        self.forms += 1;
        alike(&answer_text(form, &answer), &answer_text(form, &due))?;
        self.met.note(form, stage, &answer, self.model.store());
        difference(&self.desk, &desk_of(self.model.store())).map_or(Ok(answer), Err)
    }

    /// A call that need not have a form, as a Write of other than sixteen bytes.
    pub fn call(&mut self, call: Call) -> Answer {
        let form = Form::Call(call);
        self.compared(&form).unwrap_or_else(|found| panic!("{}: {found}", form_text(&form)))
    }
}

fn alike(answer: &str, due: &str) -> Result<(), String> {
    match answer == due {
        true => Ok(()),
        false => Err(format!("{answer}, not {due}")),
    }
}
