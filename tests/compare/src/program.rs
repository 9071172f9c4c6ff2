//! Part 8: the list program itself, run on tasks and settings of all sorts and
//! held against the second implementation's text.

use crate::bench::{factorial, lettered, BENCH};
use crate::comparer::Comparer;
use crate::damaged::{damage, wrong_settings};
use crate::generate;
use crate::multiply::{BOARDS_LISTING, BOARDS_SETTINGS, BOARDS_TASK};
use crate::random::Random;
use crate::records::*;
use crate::wide::{RIVER_LISTING, RIVER_SETTINGS, RIVER_TASK};
use std::collections::BTreeSet;
use std::env;
use std::fs;
use std::io::Write;
use std::path::{Path, PathBuf};
use std::process::{Command, Stdio};

/// The names of a laid file's records, the last line's word, and every refusal
/// that there is for a task. Each must have been printed.
const WORDS: [&str; 20] = [
    "SKIP",
    "SET",
    "READ",
    "WRITE",
    "IF",
    "ELSE",
    "END",
    "CHECK",
    "BEAT",
    "SAVE",
    "end",
    "refused 1",
    "refused 2",
    "refused 3",
    "refused 4",
    "refused 5",
    "refused 6",
    "refused 7",
    "refused 8",
    "refused 9",
];

/// `RACK_LIST` names the program. Without it the part makes no run.
pub fn part(comparer: &mut Comparer, seed: u64) {
    let Some(program) = env::var_os("RACK_LIST").map(PathBuf::from) else {
        println!("program: RACK_LIST does not name the list program");
        return;
    };
    let folder = env::temp_dir().join(format!("compare-{}", std::process::id()));
    fs::create_dir_all(&folder).expect("a folder for rack.set");
    let mut runs = Runs {
        program,
        folder,
        made: 0,
        seen: BTreeSet::new(),
    };
    edges(comparer, &mut runs);
    two_records(comparer, &mut runs);
    every_kind(comparer, &mut runs);
    every_refusal(comparer, &mut runs);
    let mut random = Random::new(seed);
    for _ in 0..400 {
        round(comparer, &mut runs, &mut random);
    }
    fs::remove_dir_all(&runs.folder).expect("the folder is removed");
    for word in WORDS.iter().filter(|word| !runs.seen.contains(**word)) {
        comparer.fault(&format!("no run of the list program prints {word}"));
    }
    println!("program: {} runs", runs.made);
}

struct Runs {
    program: PathBuf,
    folder: PathBuf,
    made: u64,
    /// What the lines said, by `word`.
    seen: BTreeSet<String>,
}

/// A missing, empty, short or long `rack.set`, and input that is empty or too long.
fn edges(comparer: &mut Comparer, runs: &mut Runs) {
    let bench = BENCH.bytes();
    runs.compare(comparer, None, &factorial());
    for settings in [vec![], vec![3; 11], bench.repeat(2), bench.repeat(9)] {
        runs.compare(comparer, Some(&settings), &factorial());
    }
    for length in [0, 11, 12, 3071, 3072, 3073, 3084, 70_000] {
        runs.compare(comparer, Some(&bench), &vec![1; length]);
        let steps = bytes(&[read(0, 0)]).repeat(length / 12);
        runs.compare(
            comparer,
            Some(&BENCH.with_period(1_000_000).bytes()),
            &steps,
        );
    }
}

/// The lettered tasks under both forms of their settings, the boards' under its
/// own, and the river room's under its own, one byte short of them, and with
/// bytes after them.
fn two_records(comparer: &mut Comparer, runs: &mut Runs) {
    for (settings, task) in lettered() {
        let one = runs.compare(comparer, Some(&settings.bytes()), &task);
        let two = runs.compare(comparer, Some(&settings.two_records()), &task);
        if one != two {
            comparer.fault(&format!("listed otherwise in two records: {task:02x?}"));
        }
    }
    let printed = runs.compare(comparer, Some(BOARDS_SETTINGS), BOARDS_TASK);
    if printed != BOARDS_LISTING {
        comparer.fault(&format!("the boards' listing: {printed}"));
    }
    let longer = RIVER_SETTINGS.repeat(9);
    for length in [24, 23, 25, 26, 31, 32, 33, 36, 48, 216] {
        let printed = runs.compare(comparer, Some(&longer[..length]), RIVER_TASK);
        let expected = match length {
            WIDE_SETTINGS => RIVER_LISTING,
            _ => "refused 6\n",
        };
        if printed != expected {
            comparer.fault(&format!("with {length} bytes of settings: {printed}"));
        }
    }
}

/// A line of every kind, with the largest numbers.
fn every_kind(comparer: &mut Comparer, runs: &mut Runs) {
    let task = bytes(&[
        skip(900_000),
        set(MULTIPLY + VARIABLE, 15, 15, 15),
        set(COPY, 15, 0, u32::MAX),
        read(15, 7),
        write(15, 7),
        test(IF, AT_LEAST, 15, u32::MAX),
        otherwise(),
        end(),
        repeat(WHILE, BELOW + VARIABLE, 15, 15, 2),
        skip(1),
        end(),
    ]);
    let settings = BENCH.with_window(65_535).with_period(MOST_PERIOD);
    runs.compare(comparer, Some(&settings.bytes()), &task);
    runs.compare(
        comparer,
        Some(&settings.with_period(999_999).bytes()),
        &task,
    );
}

/// Each refusal that a task can meet, by its number.
fn every_refusal(comparer: &mut Comparer, runs: &mut Runs) {
    let long = BENCH.with_period(MOST_PERIOD);
    let rounds = [repeat(WHILE, EQUAL, 0, 0, 65_535), skip(1), end()];
    let cases: [(u8, Settings, Vec<u8>); 14] = [
        (1, BENCH, vec![1; 13]),
        (1, BENCH, bytes(&[skip(1); 257])),
        (2, BENCH, bytes(&[beat(1)])),
        (3, BENCH, bytes(&[skip(0)])),
        (4, BENCH, bytes(&[end()])),
        (5, BENCH, bytes(&[test(IF, EQUAL, 0, 0); 9])),
        (6, BENCH.with_window(0), vec![]),
        (6, BENCH.with_multiply(0), vec![]),
        (6, BENCH.with_multiply(65_536), vec![]),
        (7, BENCH.with_window(15), vec![]),
        (7, BENCH.with_multiply(8), vec![]),
        (8, BENCH, bytes(&[skip(101)])),
        (8, BENCH.with_window(15), bytes(&[skip(101)])),
        (9, long, bytes(&rounds)),
    ];
    for (number, settings, task) in cases {
        let printed = runs.compare(comparer, Some(&settings.bytes()), &task);
        if printed != format!("refused {number}\n") {
            comparer.fault(&format!("refused {number} is printed as {printed}"));
        }
    }
}

fn round(comparer: &mut Comparer, runs: &mut Runs, random: &mut Random) {
    let settings = generate::settings(random);
    let size = generate::size(random, TASK);
    let task = bytes(&generate::file(random, &settings, TASK, size));
    let (settings, task) = match random.below(8) {
        0 => (wrong_settings(random, &settings), task),
        1 => (settings.bytes(), damage(random, &task)),
        _ => {
            let long = settings.with_period(random.pick(&[3000, 100_000, 1_000_000]));
            (long.bytes(), task)
        }
    };
    runs.compare(comparer, Some(&settings), &task);
}

impl Runs {
    /// Answers what the program printed.
    fn compare(&mut self, comparer: &mut Comparer, settings: Option<&[u8]>, task: &[u8]) -> String {
        self.made += 1;
        let path = self.folder.join("rack.set");
        match settings {
            Some(bytes) => fs::write(&path, bytes).expect("rack.set is written"),
            None => remove(&path),
        }
        let found = String::from_utf8_lossy(&self.printed(task)).into_owned();
        let expected = second::list(settings.unwrap_or(&[]), task);
        if found != expected {
            comparer.fault(&format!(
                "the list program on {task:02x?} under {settings:02x?}:\n{found}expected:\n{expected}"
            ));
        }
        self.seen.extend(found.lines().map(word));
        found
    }

    fn printed(&self, task: &[u8]) -> Vec<u8> {
        let mut child = Command::new(&self.program)
            .current_dir(&self.folder)
            .stdin(Stdio::piped())
            .stdout(Stdio::piped())
            .spawn()
            .expect("the list program starts");
        // The program reads no more than it needs to refuse, so that writing may fail.
        let written = child.stdin.take().map(|mut input| input.write_all(task));
        drop(written);
        child
            .wait_with_output()
            .expect("the list program ends")
            .stdout
    }
}

/// The name in a line, or a refusal with its number.
fn word(line: &str) -> String {
    let name = line.split(' ').nth(1).unwrap_or("");
    match line.starts_with("refused") {
        true => line.to_string(),
        false => name.to_string(),
    }
}

fn remove(path: &Path) {
    if path.exists() {
        fs::remove_file(path).expect("rack.set is removed");
    }
}
