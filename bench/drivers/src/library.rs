//! The library, libwellcherry.a, by the safe calls of the crate in ../rust.

use crate::engine::{buffers, owned, Engine};
use baseline::Progress;
use wellcherry::{Record, Versions, CELLS};

pub struct Library {
    record: Record,
    versions: Versions,
    data: Vec<u8>,
    committed: Vec<u8>,
}

impl Engine for Library {
    fn unset(rows: usize) -> Library {
        let (data, committed) = buffers(rows);
        Library { record: Record::NONE, versions: [0; CELLS], data, committed }
    }
    #[inline(never)]
    fn set_up(&mut self, limit: u32) -> Result<u32, u32> {
        self.record.set_up(&mut self.data, &mut self.committed, &mut self.versions, 1, limit)
    }
    #[inline(never)]
    fn begin(&mut self, client: u32) -> Result<(u32, u32), u32> {
        self.record.begin(&self.data, &self.committed, client)
    }
    #[inline(never)]
    fn read(&mut self, client: u32, cell: u32) -> Result<Option<[u8; 16]>, u32> {
        let Library { record, versions, data, committed } = self;
        let found = record.read(data, committed, versions, client, cell);
        found.map(|found| found.map(owned))
    }
    #[inline(never)]
    fn write(&mut self, client: u32, cell: u32, value: &[u8; 16]) -> Result<u32, u32> {
        self.record.write(&mut self.data, &self.committed, client, cell, value)
    }
    #[inline(never)]
    fn advance(&mut self, client: u32) -> Result<Progress, u32> {
        let progress = self.record.advance(&mut self.data, &mut self.committed, client);
        progress.map(|progress| match progress {
            wellcherry::Progress::Stage(stage) => Progress::Stage(stage),
            wellcherry::Progress::Waiting(left) => Progress::Waiting(left),
            wellcherry::Progress::Conflict(number) => Progress::Conflict(number),
            wellcherry::Progress::Done(number) => Progress::Done(number),
        })
    }
    #[inline(never)]
    fn abandon(&mut self, client: u32) -> Result<u32, u32> {
        self.record.abandon(&mut self.data, &self.committed, client)
    }
    #[inline(never)]
    fn trim(&mut self) -> Result<u32, u32> {
        self.record.trim(&mut self.data, &mut self.committed)
    }
    #[inline(never)]
    fn free(&self) -> Result<u32, u32> {
        self.record.free(&self.data, &self.committed)
    }
    /// Ticket 5 has not landed: it is the free figure.
    #[inline(never)]
    fn untouched(&self) -> Result<u32, u32> {
        self.record.free(&self.data, &self.committed)
    }
}
