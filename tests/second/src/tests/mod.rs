//! Small files, and what the calls answer to them.

mod bench;
mod laying;
mod multiply;
mod naive;
mod preparing;
mod random;
mod refusals;
mod running;
mod watching;
mod wide;

use crate::*;

pub(crate) const SKIP: u8 = 1;
pub(crate) const SET: u8 = 2;
pub(crate) const READ: u8 = 3;
pub(crate) const WRITE: u8 = 4;
pub(crate) const IF: u8 = 5;
pub(crate) const ELSE: u8 = 6;
pub(crate) const WHILE: u8 = 7;
pub(crate) const END: u8 = 8;
pub(crate) const TIMES: u8 = 9;
pub(crate) const CHECK: u8 = 10;
pub(crate) const BEAT: u8 = 11;
pub(crate) const SAVE: u8 = 12;

/// More than the longest result, so that the bytes after it show.
pub(crate) const ROOM: usize = 5_461 * 12 + 7;

pub(crate) type Raw = [u8; 12];

pub(crate) fn raw(kind: u8, one: u8, two: u8, three: u8, value: u32, count: u32) -> Raw {
    let mut bytes = [kind, one, two, three, 0, 0, 0, 0, 0, 0, 0, 0];
    bytes[4..8].copy_from_slice(&value.to_le_bytes());
    bytes[8..].copy_from_slice(&count.to_le_bytes());
    bytes
}

pub(crate) fn bare(kind: u8) -> Raw {
    raw(kind, 0, 0, 0, 0, 0)
}

pub(crate) fn skip(count: u32) -> Raw {
    raw(SKIP, 0, 0, 0, 0, count)
}

pub(crate) fn set(operation: u8, target: u8, left: u8, right: u32) -> Raw {
    raw(SET, operation, target, left, right, 0)
}

pub(crate) fn read(variable: u8, port: u8) -> Raw {
    raw(READ, 0, variable, port, 0, 0)
}

pub(crate) fn write(variable: u8, port: u8) -> Raw {
    raw(WRITE, 0, variable, port, 0, 0)
}

/// A test of variable `left` against a value; `count` is 0 but for loops.
pub(crate) fn test(kind: u8, relation: u8, left: u8, right: u32, count: u32) -> Raw {
    raw(kind, relation, 0, left, right, count)
}

pub(crate) fn beat(value: u32) -> Raw {
    raw(BEAT, 0, 0, 0, value, 0)
}

pub(crate) fn settings(ticks: [u8; 5], k: u8, h: u16, p: u32) -> Raw {
    let mut bytes = [0; 12];
    bytes[..5].copy_from_slice(&ticks);
    bytes[5] = k;
    bytes[6..8].copy_from_slice(&h.to_le_bytes());
    bytes[8..].copy_from_slice(&p.to_le_bytes());
    bytes
}

/// Settings in two records, under which a multiply takes SET's ticks.
pub(crate) fn wide(ticks: [u16; 5], k: u16, h: u32, p: u32) -> [u8; 24] {
    let mut bytes = [0; 24];
    let small = ticks.into_iter().chain([k]);
    for (place, number) in bytes.as_chunks_mut().0.iter_mut().zip(small) {
        *place = number.to_le_bytes();
    }
    bytes[12..16].copy_from_slice(&h.to_le_bytes());
    bytes[16..20].copy_from_slice(&p.to_le_bytes());
    multiplying(bytes, ticks[0].into())
}

/// The same settings with another last number, the ticks of a multiply.
pub(crate) fn multiplying(mut settings: [u8; 24], multiply: u32) -> [u8; 24] {
    settings[20..].copy_from_slice(&multiply.to_le_bytes());
    settings
}

/// The same settings with another period.
pub(crate) fn with_period(settings: &[u8], p: u32) -> Vec<u8> {
    let at = if settings.len() == 24 { 16 } else { 8 };
    let mut bytes = settings.to_vec();
    bytes[at..at + 4].copy_from_slice(&p.to_le_bytes());
    bytes
}

/// The bench's settings with another period.
pub(crate) fn bench_settings(p: u32) -> Raw {
    settings([3, 3, 3, 3, 10], 4, 20, p)
}

pub(crate) fn equalised(settings: &[u8], task: &[Raw]) -> Result<Vec<Raw>, Refused> {
    let mut out = vec![0xA5; ROOM];
    let written = equalise(settings, task.as_flattened(), &mut out);
    cut(out, written)
}

pub(crate) fn laid(settings: &[u8], file: &[Raw]) -> Result<Vec<Raw>, Refused> {
    let mut out = vec![0xA5; ROOM];
    let written = lay_out(settings, file.as_flattened(), &mut out);
    cut(out, written)
}

/// The records written; what follows them must be as it was.
fn cut(out: Vec<u8>, written: Result<Written, Refused>) -> Result<Vec<Raw>, Refused> {
    let bytes = written.map_or(0, |written| written.bytes);
    assert!(out[bytes..].iter().all(|&byte| byte == 0xA5));
    written.map(|_| out[..bytes].as_chunks::<12>().0.to_vec())
}

/// By one call, which must do what the two do.
pub(crate) fn prepared(settings: &[u8], task: &[Raw]) -> Result<Vec<Raw>, Refused> {
    let mut out = vec![0xA5; ROOM];
    let written = prepare(settings, task.as_flattened(), &mut out);
    let ready = cut(out, written);
    assert_eq!(ready, equalised(settings, task).and_then(|even| laid(settings, &even)));
    ready
}

/// What is lent to a run.
#[derive(Clone, PartialEq, Eq, Debug)]
pub(crate) struct Bench {
    pub variables: [u32; 16],
    pub inputs: [u32; 8],
    pub levels: [u32; 8],
    pub marks: [u8; 8],
    pub image: [u8; 72],
}

impl Bench {
    /// Buffers that hold anything before.
    pub fn new() -> Bench {
        Bench {
            variables: [0; 16],
            inputs: [0; 8],
            levels: [77; 8],
            marks: [7; 8],
            image: [0x5A; 72],
        }
    }

    pub fn fed(input: u32) -> Bench {
        let mut bench = Bench::new();
        bench.inputs[0] = input;
        bench
    }

    pub fn run(&mut self, settings: &[u8], form: Form, file: &[Raw]) -> Result<Ended, Refused> {
        let Bench { variables, inputs, levels, marks, .. } = self;
        run(settings, form, file.as_flattened(), variables, inputs, levels, marks)
    }

    pub fn restart(&mut self, settings: &[u8], form: Form, file: &[Raw]) -> Result<Ended, Refused> {
        let Bench { variables, inputs, levels, marks, .. } = self;
        restart(settings, form, file.as_flattened(), variables, inputs, levels, marks)
    }

    pub fn until(
        &mut self,
        settings: &[u8],
        form: Form,
        file: &[Raw],
        stop: u32,
    ) -> Result<Stopped, Refused> {
        let Bench { variables, inputs, levels, marks, image } = self;
        let file = file.as_flattened();
        run_until(settings, form, file, variables, inputs, levels, marks, image, stop)
    }

    pub fn resume(&mut self, settings: &[u8], form: Form, file: &[Raw]) -> Result<Ended, Refused> {
        let Bench { variables, inputs, levels, marks, image } = self;
        let file = file.as_flattened();
        resume(settings, form, file, variables, inputs, levels, marks, image)
    }

    pub fn image_word(&self, at: usize) -> u32 {
        u32::from_le_bytes(self.image.as_chunks::<4>().0[at])
    }
}
