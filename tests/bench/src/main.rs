//! Times every call of the proved preparer and of the second program side by side, on small, middle and the largest files and on the
//! inputs that cost most, and measures the stack of each call. It prints a table of each. No time makes it fail; an answer that differs
//! does.

mod calls;
mod clock;
mod file;
mod stack;
mod table;
mod watch;

use calls::{Form, Input, Measured};
use file::{made, Shape, LONGEST, MOST_ROUNDS, PERIOD, RECORD};
use table::{line, Work};

/// The sizes that a call is measured at, in laid records.
const SIZES: [usize; 4] = [30, 300, 3000, LONGEST];

type Call = fn(&Input) -> Measured;

struct Case<'a> {
    call: &'a str,
    make: Call,
    settings: Vec<u8>,
    form: Form,
}

impl Case<'_> {
    fn measure(&self, input: &str, shape: Shape, n: u32, units: f64, unit: &str) {
        let file = made(shape, n).0;
        self.measure_bytes(input, &file, units, unit);
    }

    fn measure_bytes(&self, input: &str, file: &[u8], units: f64, unit: &str) {
        if !wanted(self.call, input) {
            return;
        }
        let m = (self.make)(&Input { settings: &self.settings, form: self.form, file });
        line(&Work { call: self.call, input, records: file.len() / RECORD, units, unit }, &m);
    }
}

/// Whether a line has every word that the program was given.
fn wanted(call: &str, input: &str) -> bool {
    std::env::args().skip(1).all(|word| call.contains(&word) || input.contains(&word))
}

/// Laid out; a task is equalised first.
fn laid(settings: &[u8], form: Form, file: &[u8]) -> Option<Vec<u8>> {
    let mut room = vec![0; RECORD * LONGEST];
    let make = if form == Form::Task { rack::prepare } else { rack::lay_out };
    let n = make(settings, file, &mut room).ok()?.bytes;
    Some(room[..n].to_vec())
}

/// The largest n up to most of which it holds, which holds of all smaller ones too.
fn largest(most: u32, holds: impl Fn(u32) -> bool) -> u32 {
    let (mut low, mut high) = (0, most);
    while low < high {
        let n = low + (high - low).div_ceil(2);
        if holds(n) {
            low = n;
        } else {
            high = n - 1;
        }
    }
    low
}

fn fitting(settings: &[u8], shape: Shape, most: u32, records: usize) -> u32 {
    largest(most, |n| {
        let file = made(shape, n);
        file.records() <= LONGEST && laid(settings, Form::Equalised, &file.0).is_some_and(|l| l.len() <= RECORD * records)
    })
}

/// The largest n that the period takes, by the time of the file once it is laid out.
fn in_period(settings: &[u8], shape: Shape, most: u32) -> u32 {
    largest(most, |n| {
        let file = made(shape, n).0;
        let mut room = vec![0; RECORD * LONGEST];
        rack::lay_out(settings, &file, &mut room).map_or_else(|r| r.number() != 8, |_| true)
    })
}

fn timing() {
    let case = |form| Case { call: "time", make: calls::time, settings: file::usual(), form };
    case(Form::Task).measure("the factorial", file::factorial, 10, 12.0, "records");
    for n in [30, 300, 3000, LONGEST as u32] {
        case(Form::Laid).measure("n steps", file::row, n, f64::from(n), "records");
    }
    case(Form::Equalised).measure("n IFs of a step or SKIP 3", file::choices, 1092, 5460.0, "records");
    let most = LONGEST as u32 - 48;
    case(Form::Equalised).measure("16 nested IFs around n steps", file::sixteen_nested, most, LONGEST as f64, "records");
    case(Form::Equalised).measure("a full tree of 1023 IFs in a loop", file::full_tree, 1, 3071.0, "records");
}

fn equalising() {
    let case = Case { call: "equalise", make: calls::equalise, settings: file::usual(), form: Form::Task };
    case.measure("the factorial", file::factorial, 10, 12.0, "records");
    case.measure("n steps", file::row, 32, 32.0, "records");
    case.measure("n steps", file::row, 256, 256.0, "records");
    case.measure("n IFs of a step or SKIP 3", file::choices, 51, 255.0, "records");
    case.measure("8 nested IFs around n steps", file::eight_nested, 232, 256.0, "records");
    case.measure("8 nested WHILEs", file::nested_loops, 8, 16.0, "records");
}

fn laying_out() {
    let usual = |input, shape, most| {
        let case = Case { call: "lay out", make: calls::lay_out, settings: file::usual(), form: Form::Equalised };
        for size in SIZES {
            let n = fitting(&case.settings, shape, most, size);
            if n > 0 {
                let file = made(shape, n).0;
                let records = laid(&case.settings, Form::Equalised, &file).map_or(0, |l| l.len() / RECORD);
                case.measure_bytes(input, &file, records as f64, "laid records");
            }
        }
    };
    small_lay_out();
    usual("n steps", file::row, LONGEST as u32);
    usual("TIMES n of 9 steps", file::rounds, MOST_ROUNDS);
    usual("n IFs of a step or SKIP 3", file::choices, 1092);
    usual("16 nested IFs around n steps", file::sixteen_nested, LONGEST as u32 - 48);
}

fn small_lay_out() {
    let case = Case { call: "lay out", make: calls::lay_out, settings: file::usual(), form: Form::Equalised };
    let mut room = vec![0; RECORD * LONGEST];
    let task = made(file::factorial, 10).0;
    let n = rack::equalise(&case.settings, &task, &mut room).map_or(0, |w| w.bytes);
    let records = laid(&case.settings, Form::Task, &task).map_or(0, |l| l.len() / RECORD);
    case.measure_bytes("the factorial", &room[..n], records as f64, "laid records");
}

fn preparing() {
    let case = Case { call: "prepare", make: calls::prepare, settings: file::usual(), form: Form::Task };
    let prepared = |shape, n| laid(&case.settings, Form::Task, &made(shape, n).0);
    let measure = |input, shape, n| {
        let records = prepared(shape, n).map_or(0, |l| l.len() / RECORD);
        case.measure(input, shape, n, records as f64, "laid records");
    };
    measure("the factorial", file::factorial, 10);
    measure("n steps", file::row, 256);
    measure("8 nested IFs around n steps", file::eight_nested, 232);
    let n = largest(MOST_ROUNDS, |n| n == 0 || prepared(file::while_rounds, n).is_some());
    measure("WHILE n of 9 steps", file::while_rounds, n);
}

/// The inputs that cost most. Their numbers are those of the notes under the table.
fn worst_lay_out() {
    let case = |settings: &[u8]| Case { call: "lay out", make: calls::lay_out, settings: settings.to_vec(), form: Form::Equalised };
    let narrow = file::settings(1, 1, 1, 1, 3);
    let n = in_period(&narrow, file::nested_skip, PERIOD);
    case(&narrow).measure("1. 16 nested IFs around SKIP n, H 3, K 1", file::nested_skip, n, 17.0 * f64::from(n), "windows of sides");
    let n = in_period(&file::quick(), file::empty_loops, MOST_ROUNDS);
    case(&file::quick()).measure("2. TIMES n of 15 empty TIMES 65535", file::empty_loops, n, 15.0 * f64::from(n), "empty TIMES");
    let commands = file::settings(1, 255, 255, 255, 511);
    let n = in_period(&commands, file::rounds, MOST_ROUNDS);
    case(&commands).measure("3. TIMES n of 9 steps, B = S = 255, H 511, K 255", file::rounds, n, 9.0 * f64::from(n), "steps");
    let n = MOST_ROUNDS;
    case(&file::quick()).measure("4. TIMES n of a full tree of 1023 IFs", file::full_tree, n, 1023.0 * f64::from(n), "IFs");
    let n = in_period(&narrow, file::skips_in_a_row, 1000);
    case(&narrow).measure(
        "5. 1365 IFs in a row around SKIP n, H 3, K 1",
        file::skips_in_a_row,
        n,
        2730.0 * f64::from(n),
        "windows of sides",
    );
    // A window for each tick of the SKIP and each test on the path.
    let n = PERIOD / 3 - 13;
    case(&narrow).measure(
        "5. 1535 IFs, 13 deep, around SKIP n, H 3, K 1",
        file::skips_in_a_tree,
        n,
        1536.0 * f64::from(n),
        "windows of sides",
    );
    // 15 * 65500 ticks end in the last window that the period takes whole.
    let long = file::settings(1, 1, 1, 255, 65535);
    let n = 65500;
    case(&long).measure("6. 546 loops in a tree, TIMES 15 of TIMES n of an IF", file::loops_in_a_tree, n, 8190.0 * f64::from(n), "IFs");
    case(&long).measure("7. 121 loops, 15 deep, TIMES n of 15 SKIP 1", file::loops_in_second_sides, n, 1815.0 * f64::from(n), "SKIPs");
}

fn running() {
    let case = |settings, form| Case { call: "run", make: calls::run, settings, form };
    case(file::usual(), Form::Task).measure("the factorial, as written", file::factorial, 10, 35.0, "steps");
    run_laid("the factorial, laid", Form::Task, file::factorial, 10);
    for size in SIZES {
        run_laid("n steps, laid", Form::Equalised, file::row, fitting(&file::usual(), file::row, LONGEST as u32, size));
    }
    run_laid("n IFs, laid", Form::Equalised, file::choices, fitting(&file::usual(), file::choices, 1092, LONGEST));
    for n in [100, 10_000, MOST_ROUNDS] {
        case(file::quick(), Form::Equalised).measure("TIMES n of 9 steps", file::rounds, n, 9.0 * f64::from(n), "steps");
    }
    let n = MOST_ROUNDS;
    case(file::quick(), Form::Task).measure("WHILE n of 9 steps, which overruns", file::while_rounds, n, 10.0 * f64::from(n), "steps");
    case(file::quick(), Form::Equalised).measure(
        "TIMES n of 15 empty TIMES 65535",
        file::empty_loops,
        n,
        15.0 * f64::from(n),
        "empty TIMES",
    );
    case(file::quick(), Form::Equalised).measure("TIMES n of a full tree of 1023 IFs", file::full_tree, n, 10.0 * f64::from(n), "tests");
}

fn run_laid(input: &str, form: Form, shape: Shape, n: u32) {
    let settings = file::usual();
    let Some(file) = laid(&settings, form, &made(shape, n).0) else { return };
    let records = (file.len() / RECORD) as f64;
    let case = Case { call: "run", make: calls::run, settings, form: Form::Laid };
    case.measure_bytes(input, &file, records, "laid records");
}

fn stopping() {
    stop_laid("the factorial, laid", Form::Task, file::factorial, 10);
    for size in SIZES {
        stop_laid("n steps, laid", Form::Equalised, file::row, fitting(&file::usual(), file::row, LONGEST as u32, size));
    }
    stop_laid("n IFs, laid", Form::Equalised, file::choices, fitting(&file::usual(), file::choices, 1092, LONGEST));
}

/// Stopped at half its time.
fn stop_laid(input: &str, form: Form, shape: Shape, n: u32) {
    if !wanted("run until, resume", input) {
        return;
    }
    let settings = file::usual();
    let Some(file) = laid(&settings, form, &made(shape, n).0) else { return };
    let records = file.len() / RECORD;
    let stop = rack::time_file(&settings, rack::Form::Laid, &file).map_or(0, |t| t / 2);
    let m = calls::stop_and_resume(&Input { settings: &settings, form: Form::Laid, file: &file }, stop);
    line(&Work { call: "run until, resume", input, records, units: records as f64, unit: "laid records" }, &m);
}

/// The numbers of the other lines, in two records.
fn wide_settings() {
    let input = "the factorial, wide settings";
    let case = |call, make, form| Case { call, make, settings: file::usual_wide(), form };
    let task = made(file::factorial, 10).0;
    let mut room = vec![0; RECORD * LONGEST];
    let n = rack::equalise(&file::usual_wide(), &task, &mut room).map_or(0, |w| w.bytes);
    let laid = laid(&file::usual_wide(), Form::Task, &task).unwrap_or_default();
    let records = (laid.len() / RECORD) as f64;
    case("equalise", calls::equalise, Form::Task).measure_bytes(input, &task, 12.0, "records");
    case("lay out", calls::lay_out, Form::Equalised).measure_bytes(input, &room[..n], records, "laid records");
    case("prepare", calls::prepare, Form::Task).measure_bytes(input, &task, records, "laid records");
    case("run", calls::run, Form::Laid).measure_bytes(input, &laid, records, "laid records");
}

fn main() {
    table::head();
    timing();
    equalising();
    laying_out();
    preparing();
    running();
    stopping();
    wide_settings();
    watch::watching();
    worst_lay_out();
    if std::env::args().len() == 1 {
        stack::table();
    }
}
