//! One line of the table for each measurement.

use crate::calls::{Answer, Measured};

pub fn head() {
    println!("| call | input | records | answer | units | proved, ms | ns each | second, ms | ns each | copying, ms | ratio |");
    println!("|---|---|--:|---|--:|--:|--:|--:|--:|--:|--:|");
}

/// What a line is about: the call, the input in words, its records, and the units of work that a call does.
pub struct Work<'a> {
    pub call: &'a str,
    pub input: &'a str,
    pub records: usize,
    pub units: f64,
    pub unit: &'a str,
}

pub fn line(w: &Work, m: &Measured) {
    println!(
        "| {} | {} | {} | {} | {} {} | {:.4} | {:.1} | {:.4} | {:.1} | {:.6} | {:.2} |",
        w.call,
        w.input,
        w.records,
        said(&m.answer),
        w.units,
        w.unit,
        1e3 * m.proved,
        1e9 * m.proved / w.units,
        1e3 * m.second,
        1e9 * m.second / w.units,
        1e3 * m.copying,
        m.proved / m.second,
    );
}

fn said(answer: &Answer) -> String {
    match answer {
        Ok((first, 0)) => format!("{first}"),
        Ok((first, second)) => format!("{first}, {second}"),
        Err(number) => format!("refused {number}"),
    }
}
