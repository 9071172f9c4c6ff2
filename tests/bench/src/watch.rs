//! The watcher's calls, made through both programs on a full table.

use crate::calls::{Answer, Measured};
use crate::clock;
use crate::table::{line, Work};
use crate::wanted;
use std::hint::black_box;

pub const INPUT: &str = "each of 32 entries";
const ENTRIES: u32 = rack::ENTRIES as u32;

pub type Table = [u32; rack::ENTRIES * rack::ENTRY];

/// Entries of the largest count, which no number of looks measured here uses up.
pub fn full() -> Table {
    let mut table = [0; rack::ENTRIES * rack::ENTRY];
    table.as_chunks_mut().0.fill([u32::MAX, 20, 0]);
    table
}

/// The health's number and the count + 2, or a refusal's number.
fn of_rack(answer: Result<rack::Watched, rack::Refusal>) -> Answer {
    answer.map(|w| (w.health as u32, w.left)).map_err(|r| r.number())
}

fn of_second(answer: Result<second::Watched, second::Refused>) -> Answer {
    answer.map(|w| (w.health as u32, w.left)).map_err(|r| r.number)
}

/// A call for each entry; the answer is that for the last.
fn each(table: &mut Table, call: &impl Fn(&mut Table, u32) -> Answer) -> Answer {
    let mut last = Ok((0, 0));
    for entry in 0..black_box(ENTRIES) {
        last = black_box(call(table, entry));
    }
    last
}

fn measured(one: impl Fn(&mut Table, u32) -> Answer, two: impl Fn(&mut Table, u32) -> Answer) -> Measured {
    let (mut tables, mut to) = ((full(), full()), full());
    let answer = each(&mut tables.0, &one);
    assert_eq!(answer, each(&mut tables.1, &two), "the two programs answer alike");
    assert_eq!(tables.0, tables.1, "the two programs leave the same table");
    let from = tables.0;
    let [proved, second, copying] = clock::best([
        &mut || {
            each(black_box(&mut tables.0), &one).ok();
        },
        &mut || {
            each(black_box(&mut tables.1), &two).ok();
        },
        &mut || {
            to.copy_from_slice(black_box(&from));
            black_box(&mut to);
        },
    ]);
    Measured { answer, proved, second, copying }
}

fn measure(call: &str, one: impl Fn(&mut Table, u32) -> Answer, two: impl Fn(&mut Table, u32) -> Answer) {
    if wanted(call, INPUT) {
        line(&Work { call, input: INPUT, records: 0, units: ENTRIES.into(), unit: "entries" }, &measured(one, two));
    }
}

/// Both programs are called as a library is: the compiler knows neither the
/// numbers nor, of the second, the function, which it would else work out in
/// the loop that measures it.
pub fn watching() {
    let number = black_box(20);
    let [beat, reset] = black_box([second::beat as Numbered, second::reset]);
    let (look, status) = (black_box(second::look as Plain), black_box(second::status as Shown));
    measure("beat", |t, e| of_rack(rack::beat(t, e, number)), |t, e| of_second(beat(t, e, number)));
    measure("look", |t, e| of_rack(rack::look(t, e)), |t, e| of_second(look(t, e)));
    measure("reset", |t, e| of_rack(rack::reset(t, e, number)), |t, e| of_second(reset(t, e, number)));
    measure("status", |t, e| of_rack(rack::status(t, e)), |t, e| of_second(status(t, e)));
}

type Numbered = fn(&mut [u32], u32, u32) -> Result<second::Watched, second::Refused>;
type Plain = fn(&mut [u32], u32) -> Result<second::Watched, second::Refused>;
type Shown = fn(&[u32], u32) -> Result<second::Watched, second::Refused>;

type Watches = fn(&mut Table) -> Result<rack::Watched, rack::Refusal>;

/// The watcher's calls by name, for the table of stacks.
pub const CALLS: [(&str, Watches); 4] = [
    ("beat", |t| rack::beat(t, ENTRIES - 1, 1)),
    ("look", |t| rack::look(t, ENTRIES - 1)),
    ("reset", |t| rack::reset(t, ENTRIES - 1, 20)),
    ("status", |t| rack::status(t, ENTRIES - 1)),
];
