//! One record of 12 bytes: its kind, its fields and their ranges.

use crate::Form;

/// The bytes of one record.
pub(crate) const SIZE: usize = 12;

const MOST_TICKS: u32 = 1_000_000;
const MOST_ROUNDS: u32 = 65_535;
const MOST_VARIABLE: u32 = 15;
const MOST_PORT: u8 = 7;

/// Added to byte 1 when the right value numbers a variable.
const BY_VARIABLE: u8 = 16;

const MULTIPLY: u8 = 3;

#[derive(Clone, Copy, PartialEq, Eq, Debug)]
#[repr(u8)]
pub(crate) enum Kind {
    Skip = 1,
    Set,
    Read,
    Write,
    If,
    Else,
    While,
    End,
    Times,
    Check,
    Beat,
    Save,
}

use Kind::*;

const KINDS: [Kind; 12] = [Skip, Set, Read, Write, If, Else, While, End, Times, Check, Beat, Save];

impl Kind {
    /// The kind of this number, if a file of this form may hold it.
    pub(crate) fn of(byte: u8, form: Form) -> Option<Kind> {
        let kind = *KINDS.get(usize::from(byte).checked_sub(1)?)?;
        let held = match form {
            Form::Task => !matches!(kind, Times | Check | Beat | Save),
            Form::Equalised => !matches!(kind, While | Check | Beat | Save),
            Form::Laid => !matches!(kind, While | Times),
        };
        held.then_some(kind)
    }

    pub(crate) fn name(self) -> &'static str {
        const NAMES: [&str; 12] = [
            "SKIP", "SET", "READ", "WRITE", "IF", "ELSE", "WHILE", "END", "TIMES", "CHECK", "BEAT",
            "SAVE",
        ];
        NAMES[self as usize - 1]
    }
}

/// `one`, `two` and `three` are bytes 1 to 3, `value` bytes 4 to 7, `count` bytes 8 to 11.
#[derive(Clone, Copy, PartialEq, Eq, Debug)]
pub(crate) struct Record {
    pub kind: Kind,
    pub one: u8,
    pub two: u8,
    pub three: u8,
    pub value: u32,
    pub count: u32,
}

impl Record {
    /// A record of nothing but its kind.
    pub(crate) const fn bare(kind: Kind) -> Record {
        Record { kind, one: 0, two: 0, three: 0, value: 0, count: 0 }
    }

    pub(crate) const fn skip(count: u32) -> Record {
        Record { count, ..Record::bare(Skip) }
    }

    pub(crate) const fn beat(value: u32) -> Record {
        Record { value, ..Record::bare(Beat) }
    }

    /// The same test under another kind and count.
    pub(crate) fn test_as(self, kind: Kind, count: u32) -> Record {
        Record { kind, count, ..self }
    }

    /// The fields of a record whose kind is already known.
    pub(crate) fn decode(kind: Kind, bytes: &[u8; SIZE]) -> Record {
        let number = |at: usize| {
            u32::from_le_bytes([bytes[at], bytes[at + 1], bytes[at + 2], bytes[at + 3]])
        };
        Record {
            kind,
            one: bytes[1],
            two: bytes[2],
            three: bytes[3],
            value: number(4),
            count: number(8),
        }
    }

    pub(crate) fn encode(self, bytes: &mut [u8; SIZE]) {
        bytes[..4].copy_from_slice(&[self.kind as u8, self.one, self.two, self.three]);
        bytes[4..8].copy_from_slice(&self.value.to_le_bytes());
        bytes[8..].copy_from_slice(&self.count.to_le_bytes());
    }

    /// Every field in its range and every unused byte 0.
    pub(crate) fn fields_good(&self) -> bool {
        let rest_zero = self.one == 0 && self.two == 0 && self.three == 0;
        match self.kind {
            Skip => rest_zero && self.value == 0 && (1..=MOST_TICKS).contains(&self.count),
            Set => self.set_good() && self.count == 0,
            Read | Write => self.port_good() && self.value == 0 && self.count == 0,
            If | Check => self.test_good() && self.count == 0,
            While | Times => self.test_good() && (1..=MOST_ROUNDS).contains(&self.count),
            Beat => rest_zero && self.value <= MOST_TICKS && self.count == 0,
            Else | End | Save => rest_zero && self.value == 0 && self.count == 0,
        }
    }

    fn set_good(&self) -> bool {
        let copies = self.operation() == 0;
        let left_good =
            if copies { self.three == 0 } else { u32::from(self.three) <= MOST_VARIABLE };
        self.operation() <= MULTIPLY
            && u32::from(self.two) <= MOST_VARIABLE
            && left_good
            && self.right_good()
    }

    fn port_good(&self) -> bool {
        self.one == 0 && u32::from(self.two) <= MOST_VARIABLE && self.three <= MOST_PORT
    }

    fn test_good(&self) -> bool {
        self.operation() <= 5
            && self.two == 0
            && u32::from(self.three) <= MOST_VARIABLE
            && self.right_good()
    }

    fn right_good(&self) -> bool {
        !self.by_variable() || self.value <= MOST_VARIABLE
    }

    fn by_variable(&self) -> bool {
        self.one & BY_VARIABLE != 0
    }

    /// The operation or relation, without the mark for a variable.
    fn operation(&self) -> u8 {
        self.one & !BY_VARIABLE
    }

    /// Whether a SET multiplies, by a value or by a variable.
    pub(crate) fn multiplies(&self) -> bool {
        self.operation() == MULTIPLY
    }

    /// The right value of a SET or a test.
    fn right(&self, variables: &[u32; 16]) -> u32 {
        if self.by_variable() {
            variables[(self.value & MOST_VARIABLE) as usize]
        } else {
            self.value
        }
    }

    fn left(&self, variables: &[u32; 16]) -> u32 {
        variables[usize::from(self.three & 15)]
    }

    /// What a SET puts into its target.
    pub(crate) fn result(&self, variables: &[u32; 16]) -> u32 {
        let (left, right) = (self.left(variables), self.right(variables));
        match self.operation() {
            0 => right,
            1 => left.wrapping_add(right),
            2 => left.wrapping_sub(right),
            _ => left.wrapping_mul(right),
        }
    }

    /// Whether the test of an IF, WHILE, TIMES or CHECK holds.
    pub(crate) fn holds(&self, variables: &[u32; 16]) -> bool {
        let (left, right) = (self.left(variables), self.right(variables));
        match self.operation() {
            0 => left == right,
            1 => left != right,
            2 => left < right,
            3 => left <= right,
            4 => left > right,
            _ => left >= right,
        }
    }
}
