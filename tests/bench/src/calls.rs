//! The calls, made through both programs on one input.

use crate::clock;
use crate::file::{LONGEST, RECORD};
use std::hint::black_box;

/// What is handed over: settings, and a file with its form.
pub struct Input<'a> {
    pub settings: &'a [u8],
    pub form: Form,
    pub file: &'a [u8],
}

#[derive(Clone, Copy, PartialEq)]
pub enum Form {
    Task,
    Equalised,
    Laid,
}

impl Form {
    pub fn of_rack(self) -> rack::Form {
        match self {
            Form::Task => rack::Form::Task,
            Form::Equalised => rack::Form::Equalised,
            Form::Laid => rack::Form::Laid,
        }
    }

    fn of_second(self) -> second::Form {
        match self {
            Form::Task => second::Form::Task,
            Form::Equalised => second::Form::Equalised,
            Form::Laid => second::Form::Laid,
        }
    }
}

/// The values of a finished result, or a refusal's number.
pub type Answer = Result<(u32, u32), u8>;

/// The answer, and the seconds of one call of the proved and of the second program, and of copying the bytes.
pub struct Measured {
    pub answer: Answer,
    pub proved: f64,
    pub second: f64,
    pub copying: f64,
}

/// Each program has a buffer of its own for a result; `written` gives the bytes that a call with that answer left there.
fn measured(x: &Input, written: fn(Answer) -> usize, one: impl Fn(&mut [u8]) -> Answer, two: impl Fn(&mut [u8]) -> Answer) -> Measured {
    let mut out = (room(), room());
    let answer = one(&mut out.0);
    assert_eq!(answer, two(&mut out.1), "the two programs answer alike");
    let result = out.0[..written(answer)].to_vec();
    let [proved, second, copying] = clock::best([
        &mut || {
            black_box(one(&mut out.0)).ok();
        },
        &mut || {
            black_box(two(&mut out.1)).ok();
        },
        &mut copies(x.file, &result),
    ]);
    Measured { answer, proved, second, copying }
}

/// Copies both into buffers made beforehand.
fn copies<'a>(file: &'a [u8], result: &'a [u8]) -> impl FnMut() + 'a {
    let mut to = (vec![0; file.len()], vec![0; result.len()]);
    move || {
        to.0.copy_from_slice(black_box(file));
        to.1.copy_from_slice(black_box(result));
        black_box(&mut to);
    }
}

fn nothing(_: Answer) -> usize {
    0
}

fn first_value(answer: Answer) -> usize {
    answer.map_or(0, |(bytes, _)| bytes as usize)
}

pub fn time(x: &Input) -> Measured {
    measured(
        x,
        nothing,
        |_| rack::time_file(x.settings, x.form.of_rack(), x.file).map(|t| (t, 0)).map_err(|r| r.number()),
        |_| second::time_file(x.settings, x.form.of_second(), x.file).map(|t| (t, 0)).map_err(|r| r.number),
    )
}

pub fn equalise(x: &Input) -> Measured {
    measured(
        x,
        first_value,
        |out| rack::equalise(x.settings, x.file, out).map(|w| (w.bytes as u32, w.time)).map_err(|r| r.number()),
        |out| second::equalise(x.settings, x.file, out).map(|w| (w.bytes as u32, w.time)).map_err(|r| r.number),
    )
}

pub fn lay_out(x: &Input) -> Measured {
    measured(
        x,
        first_value,
        |out| rack::lay_out(x.settings, x.file, out).map(|w| (w.bytes as u32, w.time)).map_err(|r| r.number()),
        |out| second::lay_out(x.settings, x.file, out).map(|w| (w.bytes as u32, w.time)).map_err(|r| r.number),
    )
}

pub fn prepare(x: &Input) -> Measured {
    measured(
        x,
        first_value,
        |out| rack::prepare(x.settings, x.file, out).map(|w| (w.bytes as u32, w.time)).map_err(|r| r.number()),
        |out| second::prepare(x.settings, x.file, out).map(|w| (w.bytes as u32, w.time)).map_err(|r| r.number),
    )
}

pub fn room() -> Vec<u8> {
    vec![0; RECORD * LONGEST]
}

/// The factorial is taken of 12, so that its loop has all its rounds.
pub const INPUTS: [u32; 8] = [12, 0, 0, 0, 0, 0, 0, 0];

/// What a run is lent.
pub struct Lent {
    pub variables: [u32; 16],
    pub levels: [u32; 8],
    pub marks: [u8; 8],
    pub image: [u8; 72],
}

impl Lent {
    pub fn new() -> Self {
        Lent { variables: [0; 16], levels: [0; 8], marks: [0; 8], image: [0; 72] }
    }
}

pub fn run(x: &Input) -> Measured {
    measured(
        x,
        nothing,
        |_| {
            let mut l = Lent::new();
            rack::run(x.settings, x.form.of_rack(), x.file, &mut l.variables, &INPUTS, &mut l.levels, &mut l.marks)
                .map(|e| (e.tick, u32::from(e.overran)))
                .map_err(|r| r.number())
        },
        |_| {
            let mut l = Lent::new();
            second::run(x.settings, x.form.of_second(), x.file, &mut l.variables, &INPUTS, &mut l.levels, &mut l.marks)
                .map(|e| (e.tick, u32::from(e.overran)))
                .map_err(|r| r.number)
        },
    )
}

/// Stopped at a tick by which a checkpoint is finished, and taken up.
pub fn stop_and_resume(x: &Input, stop: u32) -> Measured {
    measured(x, nothing, |_| rack_stop(x, stop), |_| second_stop(x, stop))
}

fn rack_stop(x: &Input, stop: u32) -> Answer {
    let mut l = Lent::new();
    let form = x.form.of_rack();
    let (v, o, m, i) = (&mut l.variables, &mut l.levels, &mut l.marks, &mut l.image);
    rack::run_until(x.settings, form, x.file, v, &INPUTS, o, m, i, stop).map_err(|r| r.number())?;
    rack::resume(x.settings, form, x.file, v, &INPUTS, o, m, i).map(|e| (e.tick, u32::from(e.overran))).map_err(|r| r.number())
}

fn second_stop(x: &Input, stop: u32) -> Answer {
    let mut l = Lent::new();
    let form = x.form.of_second();
    let (v, o, m, i) = (&mut l.variables, &mut l.levels, &mut l.marks, &mut l.image);
    second::run_until(x.settings, form, x.file, v, &INPUTS, o, m, i, stop).map_err(|r| r.number)?;
    second::resume(x.settings, form, x.file, v, &INPUTS, o, m, i).map(|e| (e.tick, u32::from(e.overran))).map_err(|r| r.number)
}
