//! Walks a laid file by its ticks: where its SAVEs end, and whether it keeps
//! the rules of laying out that show in the file alone.

use crate::records::{number, records, Record, Settings, BEAT, ELSE, END, IF, SAVE, SKIP};

pub struct Walk {
    records: Vec<Record>,
    settings: Settings,
    /// The ticks at which SAVEs end, in file order.
    pub save_ends: Vec<u32>,
    /// The start tick of each record.
    pub starts: Vec<u32>,
    pub faults: Vec<&'static str>,
}

impl Walk {
    pub fn new(settings: &Settings, laid: &[u8]) -> Walk {
        Walk {
            records: records(laid),
            settings: *settings,
            save_ends: Vec::new(),
            starts: Vec::new(),
            faults: Vec::new(),
        }
    }

    /// Walks a file made by laying out, whose total was answered.
    pub fn check(mut self, total: u32) -> Walk {
        let (next, tick) = self.sequence(0, 0);
        self.hold(next == self.records.len(), "blocks close");
        self.hold(tick == total, "the total is the last tick");
        self.last_beat(total);
        self
    }

    fn hold(&mut self, statement: bool, what: &'static str) {
        if !statement {
            self.faults.push(what);
        }
    }

    fn last_beat(&mut self, total: u32) {
        let window = self.settings.window;
        let left = self.settings.period - total;
        let last = self.records.last();
        let ends_well =
            last.is_some_and(|last| last[0] == BEAT && number(last, 4) == left.div_ceil(window));
        self.hold(ends_well, "the last BEAT counts the windows left");
    }

    /// Walks from a record to the ELSE, END or end of file that closes the
    /// sequence; answers its index and the tick there.
    fn sequence(&mut self, from: usize, start: u32) -> (usize, u32) {
        let (mut index, mut tick) = (from, start);
        while index < self.records.len() && ![ELSE, END].contains(&self.records[index][0]) {
            self.starts.push(tick);
            if self.records[index][0] == IF {
                self.step(from, index, tick);
                (index, tick) = self.branch(index + 1, tick + 1);
            } else {
                self.step(from, index, tick);
                tick += self.settings.ticks(&self.records[index]);
                index += 1;
            }
        }
        (index, tick)
    }

    /// Walks both sides of an IF; answers the record after its END.
    fn branch(&mut self, from: usize, start: u32) -> (usize, u32) {
        let (middle, first_end) = self.sequence(from, start);
        self.starts.push(start);
        let (last, second_end) = self.sequence(middle + 1, start);
        self.starts.push(second_end);
        self.hold(first_end == second_end, "the sides of an IF meet");
        (last + 1, first_end)
    }

    fn step(&mut self, from: usize, index: usize, tick: u32) {
        let record = self.records[index];
        let previous = (index > from).then(|| self.records[index - 1][0]);
        let window = self.settings.window;
        match record[0] {
            BEAT => self.beat(index, tick),
            SAVE => {
                self.save_ends.push(tick + u32::from(self.settings.save));
                self.hold(previous == Some(BEAT), "a SAVE is directly after a BEAT");
            }
            kind => {
                let ticks = self.settings.ticks(&record);
                let within = tick % window;
                self.hold(within != 0, "a BEAT comes first at a multiple of H");
                self.hold(within + ticks <= window, "no step crosses a multiple of H");
                let twice = kind == SKIP && previous == Some(SKIP);
                self.hold(!twice, "neighbouring SKIPs merge");
            }
        }
    }

    fn beat(&mut self, index: usize, tick: u32) {
        let window = self.settings.window;
        self.hold(tick.is_multiple_of(window), "a BEAT is at a multiple of H");
        let last = index + 1 == self.records.len();
        if last {
            return;
        }
        let value = number(&self.records[index], 4);
        self.hold(value == 1, "a BEAT before the last has value 1");
        let due = u64::from(tick).is_multiple_of(self.settings.ticks_between_saves());
        let saves = self.records[index + 1][0] == SAVE;
        self.hold(
            due == saves,
            "a SAVE follows at the multiples of K x H alone",
        );
    }
}
