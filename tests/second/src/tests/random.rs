//! Many small files by chance, held to the rules read one tick at a time.

use super::naive::{block, equal, flat, lay_all, leaf, numbers, time, tree, Moment, Node, Trace};
use super::*;

struct Chance(u64);

impl Chance {
    fn below(&mut self, bound: u64) -> u64 {
        self.0 ^= self.0 << 13;
        self.0 ^= self.0 >> 7;
        self.0 ^= self.0 << 17;
        (self.0 >> 11) % bound
    }

    fn small(&mut self, bound: u8) -> u8 {
        self.below(bound.into()) as u8
    }

    fn test(&mut self, kind: u8, count: u32) -> Raw {
        let relation = self.small(6) + 16 * self.small(2);
        test(kind, relation, self.small(3), self.below(3) as u32, count)
    }

    fn step(&mut self) -> Raw {
        match self.below(6) {
            0 => read(self.small(3), self.small(3)),
            1 => write(self.small(3), self.small(3)),
            2 | 3 => skip(1 + self.below(30).min(self.0 % 29) as u32),
            _ => {
                let operation = self.small(4);
                let left = if operation == 0 { 0 } else { self.small(3) };
                set(operation + 16 * self.small(2), self.small(3), left, self.below(3) as u32)
            }
        }
    }

    /// A part of a task, or of an equalised file whose sides may differ in time.
    fn part(&mut self, depth: u32, loops: u8) -> Vec<Node> {
        let length = self.below(5);
        (0..length)
            .map(|_| {
                let choice = if depth == 0 { 9 } else { self.below(9) };
                match choice {
                    0 | 1 => {
                        let sides = vec![self.part(depth - 1, loops), self.part(depth - 1, loops)];
                        block(self.test(IF, 0), sides)
                    }
                    2 => {
                        let count = 1 + self.below(4) as u32;
                        block(self.test(loops, count), vec![self.part(depth - 1, loops)])
                    }
                    _ => leaf(self.step()),
                }
            })
            .collect()
    }

    /// In two records, where one step may be slower than a byte can say and a
    /// multiply has ticks of its own, or in one.
    fn settings(&mut self) -> Vec<u8> {
        let (two_records, slow) = (self.below(2) == 0, self.below(2) == 0);
        let mut ticks = [0; 5];
        ticks.fill_with(|| 1 + self.small(5));
        let mut slower = ticks.map(u16::from);
        if two_records && slow {
            slower[self.below(5) as usize] = 250 + u16::from(self.small(20));
        }
        let [set, read, write, beat, save] = slower;
        let multiply = if two_records { 1 + self.below(20) as u16 } else { set };
        let h = beat + save + set.max(multiply).max(read).max(write) + self.below(12) as u16;
        let k = 1 + self.small(4);
        match two_records {
            true => multiplying(wide(slower, k.into(), h.into(), 2_000), multiply.into()).to_vec(),
            false => settings(ticks, k, h, 2_000).to_vec(),
        }
    }

    fn bench(&mut self) -> Bench {
        let mut bench = Bench::new();
        bench.variables.fill_with(|| self.below(4) as u32);
        bench.inputs.fill_with(|| self.below(4) as u32);
        bench.image.fill_with(|| self.small(255));
        bench
    }
}

fn flattened(nodes: &[Node]) -> Vec<Raw> {
    let mut file = Vec::new();
    flat(nodes, &mut file);
    file
}

fn trace<'a>(settings: &'a [u8], bench: &Bench, nodes: &[Node]) -> (Trace<'a>, bool) {
    let first =
        Moment { tick: 0, variables: bench.variables, levels: [0; 8], marks: [0; 8], saved: false };
    let mut trace = Trace { settings, inputs: bench.inputs, moments: vec![first] };
    let overran = trace.run(nodes);
    (trace, overran)
}

fn check_run(settings: &[u8], form: Form, file: &[Raw], bench: &Bench) -> bool {
    let nodes = tree(file, &mut 0);
    let (trace, overran) = trace(settings, bench, &nodes);
    let last = trace.moments.last().unwrap();
    let mut after = bench.clone();
    let ended = after.run(settings, form, file);
    assert_eq!(ended, Ok(Ended { tick: last.tick, overran }));
    assert_eq!(after.variables, last.variables);
    assert_eq!((after.levels, after.marks), (last.levels, last.marks));
    check_stops(settings, form, file, bench, &trace.moments);
    overran
}

fn check_stops(settings: &[u8], form: Form, file: &[Raw], bench: &Bench, moments: &[Moment]) {
    let end = moments.last().unwrap().tick;
    for stop in 0..end {
        let mut after = bench.clone();
        let done = moments.iter().rev().find(|moment| moment.tick <= stop).unwrap();
        let save = moments.iter().rev().find(|moment| moment.saved && moment.tick <= stop);
        let stopped = after.until(settings, form, file, stop);
        assert_eq!(stopped, Ok(Stopped { tick: stop, saved: save.is_some() }));
        assert_eq!(after.variables, done.variables);
        assert_eq!((after.levels, after.marks), (done.levels, done.marks));
        match save {
            Some(save) => {
                assert_eq!(after.image_word(1), save.tick);
                assert_eq!(file[after.image_word(0) as usize - 1], bare(SAVE));
                let kept: Vec<u32> = (2..18).map(|at| after.image_word(at)).collect();
                assert_eq!(kept, save.variables);
            }
            None => assert_eq!(after.image, bench.image),
        }
    }
    for stop in [end, end + 1, u32::MAX] {
        let mut after = bench.clone();
        assert_eq!(after.until(settings, form, file, stop), Err(Refused::plain(12)));
        assert_eq!(after, *bench);
    }
}

/// Stopped anywhere and taken up, a laid run ends as the task does.
fn check_taking_up(settings: &[u8], task: &[Raw], ready: &[Raw], bench: &Bench) {
    let mut plain = bench.clone();
    let overran = plain.run(settings, Form::Task, task).unwrap().overran;
    let end = bench.clone().run(settings, Form::Laid, ready).unwrap().tick;
    for stop in 0..end {
        let mut after = bench.clone();
        let saved = after.until(settings, Form::Laid, ready, stop).unwrap().saved;
        let ended = if saved {
            after.resume(settings, Form::Laid, ready)
        } else {
            after.variables = bench.variables;
            after.restart(settings, Form::Laid, ready)
        };
        assert_eq!(ended, Ok(Ended { tick: end, overran }));
        assert_eq!(after.variables, plain.variables);
        assert_eq!((after.levels, after.marks), (plain.levels, plain.marks));
    }
}

/// Laid as the tick by tick rules say; answers the laid records if any.
fn check_laying(settings: &[u8], nodes: &[Node]) -> Option<Vec<Raw>> {
    let file = flattened(nodes);
    let (expected, total) = lay_all(settings, nodes);
    let expected = flattened(&expected);
    let period = numbers(settings).p;
    let mut out = vec![0; ROOM];
    let written = lay_out(settings, file.as_flattened(), &mut out);
    if total > period {
        assert_eq!(written, Err(Refused::plain(8)));
        return None;
    }
    if expected.len() > 5_461 {
        assert_eq!(written, Err(Refused::plain(9)));
        check_total(settings, file.as_flattened(), total);
        return None;
    }
    let bytes = expected.len() * 12;
    assert_eq!(written, Ok(Written { bytes, time: total }));
    assert_eq!(out[..bytes], *expected.as_flattened());
    let laid_time = time_file(settings, Form::Laid, &out[..bytes]);
    assert_eq!(laid_time, Ok(total));
    let mut exact = vec![0; bytes];
    assert_eq!(lay_out(settings, file.as_flattened(), &mut exact), written);
    let mut short = vec![9; bytes - 1];
    assert_eq!(lay_out(settings, file.as_flattened(), &mut short), Err(Refused::plain(9)));
    assert!(short.iter().all(|&byte| byte == 9));
    check_total(settings, file.as_flattened(), total);
    Some(expected)
}

/// The total is known even where nothing fits: 9 at that period, 8 below it.
fn check_total(settings: &[u8], file: &[u8], total: u32) {
    for (period, number) in [(total, 9), (total - 1, 8)] {
        let other = with_period(settings, period);
        let refused = lay_out(&other, file, &mut [0; 11]);
        assert_eq!(refused, Err(Refused::plain(number)));
    }
}

#[test]
fn tasks_by_chance() {
    let mut chance = Chance(0x9E37_79B9_7F4A_7C15);
    let (mut run, mut over) = (0, 0);
    while run < 400 {
        let settings = chance.settings();
        let nodes = chance.part(4, WHILE);
        let task = flattened(&nodes);
        let length = time(&settings, &nodes);
        if task.len() > 256 || length > 600 {
            continue;
        }
        let even = equal(&settings, &nodes);
        assert_eq!(time_file(&settings, Form::Task, task.as_flattened()), Ok(length as u32));
        assert_eq!(equalised(&settings, &task), Ok(flattened(&even)));
        assert_eq!(time(&settings, &even), length);
        let Some(ready) = check_laying(&settings, &even) else {
            continue;
        };
        assert_eq!(prepared(&settings, &task).as_ref(), Ok(&ready));
        let bench = chance.bench();
        let overran = check_run(&settings, Form::Task, &task, &bench);
        check_run(&settings, Form::Equalised, &flattened(&even), &bench);
        check_run(&settings, Form::Laid, &ready, &bench);
        check_taking_up(&settings, &task, &ready, &bench);
        run += 1;
        over += u32::from(overran);
    }
    assert!(over > 20);
}

#[test]
fn uneven_files_by_chance() {
    let mut chance = Chance(0xD1B5_4A32_D192_ED03);
    let mut run = 0;
    while run < 2_000 {
        let settings = chance.settings();
        let nodes = chance.part(6, TIMES);
        let file = flattened(&nodes);
        if file.len() > 5_461 || time(&settings, &nodes) > 2_000 {
            continue;
        }
        let laid = check_laying(&settings, &nodes);
        if run % 10 == 0 {
            let bench = chance.bench();
            check_run(&settings, Form::Equalised, &file, &bench);
            if let Some(ready) = laid {
                check_run(&settings, Form::Laid, &ready, &bench);
            }
        }
        run += 1;
    }
}

/// A small file with a few bytes changed.
fn broken(chance: &mut Chance) -> Vec<Raw> {
    let loops = if chance.below(2) == 0 { WHILE } else { TIMES };
    let mut file = flattened(&chance.part(3, loops));
    for _ in 0..chance.below(3) {
        if !file.is_empty() {
            let place = chance.below(file.len() as u64) as usize;
            file[place][chance.below(12) as usize] = chance.small(255);
        }
    }
    file
}

/// Any bytes at all: each call ends, and a refusal changes nothing.
#[test]
fn broken_files_by_chance() {
    let mut chance = Chance(0x0123_4567_89AB_CDEF);
    for _ in 0..3_000 {
        let mut settings = chance.settings();
        if chance.below(4) == 0 {
            let place = chance.below(settings.len() as u64) as usize;
            settings[place] = chance.small(3);
        }
        let file = broken(&mut chance);
        let mut bench = chance.bench();
        bench.image[..8].copy_from_slice(&chance.below(20).to_le_bytes());
        let stop = chance.below(60) as u32;
        for form in [Form::Task, Form::Equalised, Form::Laid] {
            for call in 0..4 {
                let mut after = bench.clone();
                let taken = match call {
                    0 => after.run(&settings, form, &file).is_ok(),
                    1 => after.restart(&settings, form, &file).is_ok(),
                    2 => after.resume(&settings, form, &file).is_ok(),
                    _ => after.until(&settings, form, &file, stop).is_ok(),
                };
                assert!(taken || after == bench);
            }
        }
        let _ = prepared(&settings, &file);
        let _ = laid(&settings, &file);
        let _ = list(&settings, file.as_flattened());
    }
}
