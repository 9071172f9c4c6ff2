//! Files and settings to measure with.

use std::cmp::max;

pub const SKIP: u8 = 1;
pub const SET: u8 = 2;
pub const READ: u8 = 3;
pub const WRITE: u8 = 4;
pub const IF: u8 = 5;
pub const ELSE: u8 = 6;
pub const WHILE: u8 = 7;
pub const END: u8 = 8;
pub const TIMES: u8 = 9;

pub const RECORD: usize = 12;
pub const LONGEST: usize = 5461;
pub const MOST_ROUNDS: u32 = 65535;
pub const PERIOD: u32 = 1_000_000;

/// The ticks of SET, READ and WRITE, then B, S, K and H. The period is the longest that there is.
pub fn settings(step: u8, beat: u8, save: u8, spacing: u8, window: u16) -> Vec<u8> {
    let mut bytes = vec![step, step, step, beat, save, spacing, 0, 0, 0, 0, 0, 0];
    bytes[6..8].copy_from_slice(&window.to_le_bytes());
    bytes[8..].copy_from_slice(&PERIOD.to_le_bytes());
    bytes
}

/// The bench settings of the paper, with the longest period.
pub fn usual() -> Vec<u8> {
    settings(3, 3, 10, 4, 20)
}

/// The same numbers in two records, the last of which is a multiply's.
pub fn usual_wide() -> Vec<u8> {
    let small = [3u16, 3, 3, 3, 10, 4].map(u16::to_le_bytes);
    let large = [20, PERIOD, 3].map(u32::to_le_bytes);
    [small.concat(), large.concat()].concat()
}

/// Every step takes one tick, and a window is long.
pub fn quick() -> Vec<u8> {
    settings(1, 1, 1, 255, 10000)
}

/// Records one after the other.
#[derive(Default)]
pub struct File(pub Vec<u8>);

impl File {
    pub fn records(&self) -> usize {
        self.0.len() / RECORD
    }

    /// The variable, the port and the right value are 0. The test of a WHILE, variable 0 ≥ 0, always holds, and that of a TIMES, variable
    /// 0 < 0, never, so that its rounds are all run and do not overrun.
    pub fn add(&mut self, kind: u8, count: u32) -> &mut Self {
        let relation = match kind {
            WHILE => 5,
            TIMES => 2,
            _ => 0,
        };
        self.full([kind, relation, 0, 0], 0, count)
    }

    pub fn full(&mut self, head: [u8; 4], value: u32, count: u32) -> &mut Self {
        self.0.extend(head);
        self.0.extend(value.to_le_bytes());
        self.0.extend(count.to_le_bytes());
        self
    }

    /// SET, READ and WRITE in turn.
    pub fn steps(&mut self, n: u32) -> &mut Self {
        for i in 0..n {
            self.add(SET + (i % 3) as u8, 0);
        }
        self
    }

    /// So many levels of IFs in both sides of each other, more levels in the second sides alone, and a SKIP innermost, unless it is of 0.
    pub fn branches(&mut self, both: u32, second: u32, skip: u32) -> &mut Self {
        if both + second == 0 {
            if skip > 0 {
                self.add(SKIP, skip);
            }
            return self;
        }
        let inner = if both > 0 { (both - 1, second) } else { (0, max(second, 1) - 1) };
        self.add(IF, 0);
        if both > 0 {
            self.branches(inner.0, inner.1, skip);
        }
        self.add(ELSE, 0).branches(inner.0, inner.1, skip).add(END, 0)
    }

    /// A tree of IFs with a loop of loops of an IF in each of its innermost sides.
    pub fn loops_of_ifs(&mut self, loops: u32, n: u32) -> &mut Self {
        if loops == 1 {
            self.add(TIMES, 15).add(TIMES, n).branches(1, 0, 0);
            return self.add(END, 0).add(END, 0);
        }
        self.add(IF, 0).loops_of_ifs(loops / 2, n);
        self.add(ELSE, 0).loops_of_ifs(loops - loops / 2, n).add(END, 0)
    }

    /// A loop at the end of every path, after so many IFs at most; a path takes one first side more than said, and otherwise second sides.
    pub fn loops_of_skips(&mut self, levels: u32, firsts: u32, n: u32) -> &mut Self {
        self.add(IF, 0);
        for first in [true, false] {
            if levels == 1 || (first && firsts == 0) {
                self.add(TIMES, n);
                for _ in 0..15 {
                    self.add(SKIP, 1);
                }
                self.add(END, 0);
            } else {
                self.loops_of_skips(levels - 1, firsts - u32::from(first), n);
            }
            self.add(if first { ELSE } else { END }, 0);
        }
        self
    }
}

/// A file that grows with a number n of steps, rounds, IFs or ticks.
pub type Shape = fn(&mut File, u32);

pub fn made(shape: Shape, n: u32) -> File {
    let mut file = File::default();
    shape(&mut file, n);
    file
}

/// The factorial of the paper, whose loop has n rounds.
pub fn factorial(f: &mut File, n: u32) {
    f.add(READ, 0).full([IF, 4, 0, 0], 10, 0);
    f.full([SET, 0, 0, 0], 10, 0).full([SET, 0, 1, 0], 1, 0);
    f.add(ELSE, 0).full([SET, 0, 1, 0], 1, 0).add(END, 0);
    f.full([WHILE, 4, 0, 0], 0, n);
    f.full([SET, 19, 1, 1], 0, 0).full([SET, 2, 0, 0], 1, 0);
    f.add(END, 0).full([WRITE, 0, 1, 0], 0, 0);
}

pub fn row(f: &mut File, n: u32) {
    f.steps(n);
}

pub fn rounds(f: &mut File, n: u32) {
    f.add(TIMES, n).steps(9).add(END, 0);
}

/// A WHILE whose test always holds, so that it overruns after its last round.
pub fn while_rounds(f: &mut File, n: u32) {
    f.add(WHILE, n).steps(9).add(END, 0);
}

pub fn choices(f: &mut File, n: u32) {
    for _ in 0..n {
        f.add(IF, 0).steps(1).add(ELSE, 0).add(SKIP, 3).add(END, 0);
    }
}

/// The kinds before and behind what a block holds.
pub type Around = (&'static [u8], &'static [u8]);

pub const IN_FIRST: Around = (&[IF], &[ELSE, END]);
pub const IN_SECOND: Around = (&[IF, ELSE], &[END]);
pub const IN_WHILE: Around = (&[WHILE], &[END]);
pub const IN_TIMES: Around = (&[TIMES], &[END]);

/// n steps, with so many blocks around them, of these kinds by turns from the outermost on. Loops have one round.
pub fn nested(f: &mut File, kinds: &[Around], depth: usize, n: u32) {
    let around = || (0..depth).map(|i| kinds[i % kinds.len()]);
    for kind in around().flat_map(|(before, _)| before) {
        f.add(*kind, u32::from([WHILE, TIMES].contains(kind)));
    }
    f.steps(n);
    for kind in around().rev().flat_map(|(_, behind)| behind) {
        f.add(*kind, 0);
    }
}

pub fn eight_nested(f: &mut File, n: u32) {
    nested(f, &[IN_SECOND], 8, n);
}

pub fn sixteen_nested(f: &mut File, n: u32) {
    nested(f, &[IN_SECOND], 16, n);
}

/// n WHILEs, eight deep at most.
pub fn nested_loops(f: &mut File, n: u32) {
    for _ in 0..n {
        f.add(WHILE, 1);
    }
    for _ in 0..n {
        f.add(END, 0);
    }
}

pub fn nested_skip(f: &mut File, n: u32) {
    f.branches(0, 16, n);
}

pub fn empty_loops(f: &mut File, n: u32) {
    f.add(TIMES, n);
    for _ in 0..15 {
        f.add(TIMES, MOST_ROUNDS).add(END, 0);
    }
    f.add(END, 0);
}

/// A full tree of IFs ten deep, in a loop.
pub fn full_tree(f: &mut File, n: u32) {
    f.add(TIMES, n).branches(10, 0, 0).add(END, 0);
}

pub fn skips_in_a_row(f: &mut File, n: u32) {
    for _ in 0..1365 {
        f.branches(0, 1, n);
    }
}

pub fn skips_in_a_tree(f: &mut File, n: u32) {
    f.branches(8, 5, n);
}

pub fn loops_in_a_tree(f: &mut File, n: u32) {
    f.loops_of_ifs(546, n);
}

pub fn loops_in_second_sides(f: &mut File, n: u32) {
    f.loops_of_skips(15, 1, n);
}
