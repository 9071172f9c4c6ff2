//! A list of records in the making, no longer than its room.

use crate::program::MOST_RECORDS;
use crate::record::{Kind, Record, SIZE};
use crate::Refused;

pub(crate) struct Tape {
    pub records: Vec<Record>,
    room: usize,
    /// Set once the records are too many; none are kept from then on.
    pub over: bool,
}

impl Tape {
    /// A tape for a result that goes into a buffer of this many bytes.
    pub(crate) fn new(bytes: usize) -> Tape {
        let room = MOST_RECORDS.min(bytes / SIZE);
        Tape { records: Vec::with_capacity(room.min(256)), room, over: false }
    }

    #[inline]
    pub(crate) fn push(&mut self, record: Record) {
        if self.over {
            return;
        }
        if self.records.len() == self.room {
            self.overflow();
            return;
        }
        self.records.push(record);
    }

    /// Adds to the SKIP before or starts one. Every edge of a block leaves a
    /// record, so a SKIP that is last always belongs to the same block.
    #[inline]
    pub(crate) fn skip(&mut self, ticks: u32) {
        if ticks == 0 {
            return;
        }
        match self.records.last_mut() {
            Some(last) if last.kind == Kind::Skip => last.count += ticks,
            _ => self.push(Record::skip(ticks)),
        }
    }

    pub(crate) fn append(&mut self, records: &[Record]) {
        if self.over {
            return;
        }
        if records.len() > self.room - self.records.len() {
            self.overflow();
            return;
        }
        self.records.extend_from_slice(records);
    }

    fn overflow(&mut self) {
        self.over = true;
        self.records = Vec::new();
    }

    /// Writes the records at the front of `out` and answers their bytes.
    pub(crate) fn write(&self, out: &mut [u8]) -> Result<usize, Refused> {
        if self.over {
            return Err(Refused::plain(9));
        }
        let (places, _) = out.as_chunks_mut::<SIZE>();
        for (record, place) in self.records.iter().zip(places) {
            record.encode(place);
        }
        Ok(self.records.len() * SIZE)
    }
}
