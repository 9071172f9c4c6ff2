//! Records and settings, as bytes.

pub type Record = [u8; 12];

pub const SKIP: u8 = 1;
pub const SET: u8 = 2;
pub const READ: u8 = 3;
pub const WRITE: u8 = 4;
pub const IF: u8 = 5;
pub const ELSE: u8 = 6;
pub const WHILE: u8 = 7;
pub const END: u8 = 8;
pub const TIMES: u8 = 9;
pub const CHECK: u8 = 10;
pub const BEAT: u8 = 11;
pub const SAVE: u8 = 12;

/// The forms of a file, by the numbers of the C interface.
pub const TASK: u8 = 0;
pub const EQUALISED: u8 = 1;
pub const LAID: u8 = 2;

pub const COPY: u8 = 0;
pub const ADD: u8 = 1;
pub const SUBTRACT: u8 = 2;
pub const MULTIPLY: u8 = 3;

pub const EQUAL: u8 = 0;
pub const UNEQUAL: u8 = 1;
pub const BELOW: u8 = 2;
pub const ABOVE: u8 = 4;
pub const AT_LEAST: u8 = 5;

/// Added to an operation or relation whose right value numbers a variable.
pub const VARIABLE: u8 = 16;

/// The most records of an equalised or a laid file, and of a task.
pub const MOST_RECORDS: usize = 5461;
pub const MOST_TASK_RECORDS: usize = 256;
pub const MOST_BYTES: usize = 12 * MOST_RECORDS;
pub const MOST_PERIOD: u32 = 1_000_000;
pub const MOST_WINDOW: u32 = 1_000_000;
pub const MOST_MULTIPLY: u32 = 65_535;

/// The bytes of settings in two records.
pub const WIDE_SETTINGS: usize = 24;

pub fn plain(kind: u8) -> Record {
    let mut record = [0; 12];
    record[0] = kind;
    record
}

fn put(mut record: Record, at: usize, value: u32) -> Record {
    record[at..at + 4].copy_from_slice(&value.to_le_bytes());
    record
}

pub fn skip(count: u32) -> Record {
    put(plain(SKIP), 8, count)
}

pub fn beat(value: u32) -> Record {
    put(plain(BEAT), 4, value)
}

pub fn save() -> Record {
    plain(SAVE)
}

pub fn otherwise() -> Record {
    plain(ELSE)
}

pub fn end() -> Record {
    plain(END)
}

pub fn set(operation: u8, target: u8, left: u8, right: u32) -> Record {
    put(
        [SET, operation, target, left, 0, 0, 0, 0, 0, 0, 0, 0],
        4,
        right,
    )
}

pub fn read(variable: u8, port: u8) -> Record {
    [READ, 0, variable, port, 0, 0, 0, 0, 0, 0, 0, 0]
}

pub fn write(variable: u8, port: u8) -> Record {
    [WRITE, 0, variable, port, 0, 0, 0, 0, 0, 0, 0, 0]
}

/// IF or CHECK.
pub fn test(kind: u8, relation: u8, left: u8, right: u32) -> Record {
    put([kind, relation, 0, left, 0, 0, 0, 0, 0, 0, 0, 0], 4, right)
}

/// WHILE or TIMES.
pub fn repeat(kind: u8, relation: u8, left: u8, right: u32, count: u32) -> Record {
    put(test(kind, relation, left, right), 8, count)
}

/// A byte that has to be 0 and is not.
pub fn with_byte(mut record: Record, at: usize) -> Record {
    record[at] = 1;
    record
}

pub fn bytes(records: &[Record]) -> Vec<u8> {
    records.concat()
}

/// The whole records at the start of a file.
pub fn records(file: &[u8]) -> Vec<Record> {
    file.chunks_exact(12)
        .map(|chunk| chunk.try_into().expect("a chunk of 12"))
        .collect()
}

/// The 4-byte number at `at` of a record or an image.
pub fn number(bytes: &[u8], at: usize) -> u32 {
    u32::from_le_bytes(bytes[at..at + 4].try_into().expect("4 bytes"))
}

pub fn image(index: u32, tick: u32, variables: &[u32]) -> Vec<u8> {
    let words = [index, tick].into_iter().chain(variables.iter().copied());
    words.flat_map(u32::to_le_bytes).collect()
}

/// Where the period stands in settings of either form.
pub fn period_place(settings: &[u8]) -> usize {
    settings.len() / 3 * 2
}

/// The settings' numbers, named.
#[derive(Clone, Copy)]
pub struct Settings {
    pub set: u16,
    pub read: u16,
    pub write: u16,
    pub beat: u16,
    pub save: u16,
    pub spacing: u16,
    pub window: u32,
    pub period: u32,
    /// The ticks of a multiply; none where they are SET's. Only two records
    /// hold others, and numbers past the range too.
    pub multiply: Option<u32>,
    /// In two records, also where the numbers fit into one.
    pub wide: bool,
}

/// The numbers other than the window and the period, in turn.
pub const SMALL_NUMBERS: [fn(&mut Settings) -> &mut u16; 6] = [
    |numbers| &mut numbers.set,
    |numbers| &mut numbers.read,
    |numbers| &mut numbers.write,
    |numbers| &mut numbers.beat,
    |numbers| &mut numbers.save,
    |numbers| &mut numbers.spacing,
];

impl Settings {
    pub fn bytes(&self) -> Vec<u8> {
        match self.one_record() {
            Some(record) if !self.wide => record.to_vec(),
            _ => self.two_records(),
        }
    }

    fn small(&self) -> [u16; 6] {
        let Settings {
            set,
            read,
            write,
            beat,
            save,
            spacing,
            ..
        } = *self;
        [set, read, write, beat, save, spacing]
    }

    /// The ticks of a SET with operation 3 or 19.
    pub fn multiply_ticks(&self) -> u32 {
        self.multiply.unwrap_or(self.set.into())
    }

    /// The narrow form, where every number fits and a multiply takes SET's
    /// ticks.
    pub fn one_record(&self) -> Option<Record> {
        if self.multiply_ticks() != u32::from(self.set) {
            return None;
        }
        let mut bytes = [0; 12];
        for (byte, number) in bytes.iter_mut().zip(self.small()) {
            *byte = number.try_into().ok()?;
        }
        let window = u16::try_from(self.window).ok()?;
        bytes[6..8].copy_from_slice(&window.to_le_bytes());
        bytes[8..].copy_from_slice(&self.period.to_le_bytes());
        Some(bytes)
    }

    /// The wide form.
    pub fn two_records(&self) -> Vec<u8> {
        let small = self.small().into_iter().flat_map(u16::to_le_bytes);
        let large = [self.window, self.period, self.multiply_ticks()]
            .into_iter()
            .flat_map(u32::to_le_bytes);
        small.chain(large).collect()
    }

    pub fn with_period(&self, period: u32) -> Settings {
        Settings { period, ..*self }
    }

    pub fn with_window(&self, window: u32) -> Settings {
        Settings { window, ..*self }
    }

    pub fn with_multiply(&self, ticks: u32) -> Settings {
        let multiply = Some(ticks);
        Settings { multiply, ..*self }
    }

    /// The smallest window that laying out takes.
    pub fn least_window(&self) -> u32 {
        let longest = u32::from(self.set.max(self.read).max(self.write));
        let longest = longest.max(self.multiply_ticks());
        u32::from(self.beat) + u32::from(self.save) + longest
    }

    /// K x H, which may be above 2^32.
    pub fn ticks_between_saves(&self) -> u64 {
        u64::from(self.spacing) * u64::from(self.window)
    }

    /// The ticks of a step; ELSE and END take none, a loop's first record
    /// stands for one test.
    pub fn ticks(&self, record: &Record) -> u32 {
        match record[0] {
            SKIP => number(record, 8),
            SET if [MULTIPLY, MULTIPLY + VARIABLE].contains(&record[1]) => self.multiply_ticks(),
            SET => self.set.into(),
            READ => self.read.into(),
            WRITE => self.write.into(),
            BEAT => self.beat.into(),
            SAVE => self.save.into(),
            ELSE | END => 0,
            _ => 1,
        }
    }
}
