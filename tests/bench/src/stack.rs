//! The stack that each call needs. A call is made on a thread of its own, whose stack is painted below the frame that makes the call; how
//! deep the paint was written over is read afterwards.

use crate::calls::{room, Form, Input, Lent, INPUTS};
use crate::file::{self, made, nested, Shape, IN_FIRST, IN_SECOND, IN_TIMES, IN_WHILE, LONGEST};
use crate::watch;
use crate::{fitting, laid};
use std::cmp::Reverse;
use std::hint::black_box;
use std::ptr::with_exposed_provenance;
use std::thread;

const PAINT: u64 = 0xa5a5_a5a5_a5a5_a5a5;
/// 256 KB, far more than a call should need.
const WORDS: usize = 32 * 1024;
const STACK: usize = 1024 * 1024;

/// Paints the stack below the caller's frame, and says where the paint begins.
#[inline(never)]
fn paint() -> usize {
    let mut area = [0; WORDS];
    let first = area.as_mut_ptr();
    for i in 0..WORDS {
        // SAFETY: inside the array. A write that is not volatile would be left out, since nothing here reads it.
        unsafe { first.add(i).write_volatile(PAINT) };
    }
    black_box(first).expose_provenance()
}

/// The bytes from the top of the paint down to the deepest word that was written over.
#[inline(never)]
fn depth(lowest: usize) -> usize {
    // SAFETY: Rust gives no leave to read here, since the array is gone. But its place is in the stack of this thread, which stays mapped,
    // only frames below the caller's write there, and the compiler cannot know the address. A wrong word could only make a wrong figure.
    let word = |i| unsafe { with_exposed_provenance::<u64>(lowest + 8 * i).read_volatile() };
    let whole = (0..WORDS).take_while(|i| word(*i) == PAINT).count();
    assert!(whole > 0, "a call needs no more stack than is painted");
    8 * (WORDS - whole)
}

#[inline(never)]
fn painted(call: &mut dyn FnMut()) -> usize {
    let lowest = paint();
    call();
    depth(lowest)
}

fn on_a_thread(call: &mut (dyn FnMut() + Send)) -> usize {
    thread::scope(|s| {
        let made = thread::Builder::new().stack_size(STACK).spawn_scoped(s, || painted(call));
        made.expect("a thread starts").join().expect("the call finishes")
    })
}

extern "C" fn empty() {}

/// The bytes that a call needs beyond those of a call that does nothing. The wrapper's frame, with the arguments, is among them.
fn used<T>(mut call: impl FnMut() -> Result<T, rack::Refusal> + Send) -> usize {
    let none = on_a_thread(&mut || black_box(empty as extern "C" fn())());
    on_a_thread(&mut || assert!(black_box(call()).is_ok(), "the call finishes")) - none
}

fn time(x: &Input) -> usize {
    used(|| rack::time_file(x.settings, x.form.of_rack(), x.file))
}

fn equalise(x: &Input) -> usize {
    let mut out = room();
    used(|| rack::equalise(x.settings, x.file, &mut out))
}

fn lay_out(x: &Input) -> usize {
    let mut out = room();
    used(|| rack::lay_out(x.settings, x.file, &mut out))
}

fn prepare(x: &Input) -> usize {
    let mut out = room();
    used(|| rack::prepare(x.settings, x.file, &mut out))
}

fn run(x: &Input) -> usize {
    let mut l = Lent::new();
    used(|| rack::run(x.settings, x.form.of_rack(), x.file, &mut l.variables, &INPUTS, &mut l.levels, &mut l.marks))
}

fn restart(x: &Input) -> usize {
    let mut l = Lent::new();
    used(|| rack::restart(x.settings, x.form.of_rack(), x.file, &mut l.variables, &INPUTS, &mut l.levels, &mut l.marks))
}

/// The last tick that a run can be stopped at.
fn last_stop(x: &Input) -> u32 {
    let mut l = Lent::new();
    let end = rack::run(x.settings, x.form.of_rack(), x.file, &mut l.variables, &INPUTS, &mut l.levels, &mut l.marks);
    end.expect("the run finishes").tick - 1
}

fn stop(x: &Input, l: &mut Lent, tick: u32) -> Result<rack::Stopped, rack::Refusal> {
    let (v, o, m, i) = (&mut l.variables, &mut l.levels, &mut l.marks, &mut l.image);
    rack::run_until(x.settings, x.form.of_rack(), x.file, v, &INPUTS, o, m, i, tick)
}

fn run_until(x: &Input) -> usize {
    let (mut l, tick) = (Lent::new(), last_stop(x));
    used(|| stop(x, &mut l, tick))
}

fn resume(x: &Input) -> usize {
    let mut l = Lent::new();
    let stopped = stop(x, &mut l, last_stop(x));
    assert!(stopped.is_ok_and(|s| s.saved), "there is an image");
    used(|| rack::resume(x.settings, x.form.of_rack(), x.file, &mut l.variables, &INPUTS, &mut l.levels, &mut l.marks, &l.image))
}

/// The inputs, in words, that a call is tried on: blocks as deep as they may be, in each way that they recurse, and the longest files.
struct Sample {
    words: String,
    form: Form,
    file: Vec<u8>,
}

const TASKS: [(&str, Shape, u32); 5] = [
    ("256 steps", file::row, 256),
    ("8 nested IFs around 232 steps", file::eight_nested, 232),
    ("8 IFs, nested in first sides, around 232 steps", |f, n| nested(f, &[IN_FIRST], 8, n), 232),
    ("8 nested WHILEs around 240 steps", |f, n| nested(f, &[IN_WHILE], 8, n), 240),
    ("8 nested, WHILEs and IFs by turns, around 232 steps", |f, n| nested(f, &[IN_WHILE, IN_SECOND], 8, n), 232),
];

const EQUALISED: [(&str, Shape); 6] = [
    ("n steps", file::row),
    ("16 nested IFs around n steps", file::sixteen_nested),
    ("16 IFs, nested in first sides, around n steps", |f, n| nested(f, &[IN_FIRST], 16, n)),
    ("16 nested TIMES around n steps", |f, n| nested(f, &[IN_TIMES], 16, n)),
    ("16 nested, TIMES and IFs by turns, around n steps", |f, n| nested(f, &[IN_TIMES, IN_FIRST], 16, n)),
    ("TIMES n of a full tree of 1023 IFs", file::full_tree),
];

/// An n is as large as the laid file allows.
fn samples() -> Vec<Sample> {
    let settings = file::usual();
    let task = |(words, shape, n): (&str, Shape, u32)| Sample { words: words.into(), form: Form::Task, file: made(shape, n).0 };
    let mut all = Vec::from(TASKS.map(task));
    for (words, shape) in EQUALISED {
        let file = made(shape, fitting(&settings, shape, LONGEST as u32, LONGEST)).0;
        let result = laid(&settings, Form::Equalised, &file).expect("the file is laid out");
        all.push(Sample { words: words.into(), form: Form::Equalised, file });
        all.push(Sample { words: format!("{words}, laid"), form: Form::Laid, file: result });
    }
    all
}

/// The first of the inputs that need the most.
fn line(call: &str, used: fn(&Input) -> usize, samples: &[Sample], forms: &[Form]) {
    let settings = file::usual();
    let tried = samples.iter().filter(|s| forms.contains(&s.form));
    let measured = tried.map(|s| (used(&Input { settings: &settings, form: s.form, file: &s.file }), s));
    if let Some((bytes, worst)) = measured.min_by_key(|(bytes, _)| Reverse(*bytes)) {
        println!("| {call} | {} | {bytes} |", worst.words);
    }
}

pub fn table() {
    println!("\n| call | worst input | stack, bytes |\n|---|---|--:|");
    let all = [Form::Task, Form::Equalised, Form::Laid];
    let samples = samples();
    line("time", time, &samples, &all);
    line("equalise", equalise, &samples, &[Form::Task]);
    line("lay out", lay_out, &samples, &[Form::Equalised]);
    line("prepare", prepare, &samples, &[Form::Task]);
    line("run", run, &samples, &all);
    line("run until", run_until, &samples, &all);
    line("resume", resume, &samples, &[Form::Laid]);
    line("restart", restart, &samples, &all);
    for (call, make) in watch::CALLS {
        let mut table = watch::full();
        println!("| {call} | {} | {} |", watch::INPUT, used(|| make(&mut table)));
    }
}
