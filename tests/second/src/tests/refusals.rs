//! Each cause of the table and the order in which they are tried.

use super::*;

fn task_refused(task: &[Raw]) -> Result<u32, Refused> {
    time_file(&bench_settings(100), Form::Task, task.as_flattened())
}

fn laid_refused(file: &[Raw]) -> Result<u32, Refused> {
    time_file(&bench_settings(100), Form::Laid, file.as_flattened())
}

#[test]
fn settings_numbers() {
    let good = settings([1, 1, 1, 1, 1], 1, 1, 1);
    assert_eq!(time_file(&good, Form::Task, &[]), Ok(0));
    let low = |place: usize, width: usize| {
        let mut bytes = good;
        bytes[place..place + width].fill(0);
        bytes
    };
    let mut bad = vec![settings([1; 5], 1, 1, 1_000_001), settings([1; 5], 1, 1, u32::MAX)];
    bad.extend((0..6).map(|place| low(place, 1)));
    bad.extend([low(6, 2), low(8, 4)]);
    for bytes in bad {
        assert_eq!(time_file(&bytes, Form::Task, &[0]), Err(Refused::plain(6)));
    }
    for length in [0, 11, 13] {
        let refused = time_file(&vec![1; length], Form::Task, &[]);
        assert_eq!(refused, Err(Refused::plain(6)));
    }
}

#[test]
fn file_lengths() {
    let settings = settings([1; 5], 1, 60, 1_000_000);
    for (form, most) in [(Form::Task, 256), (Form::Equalised, 5_461), (Form::Laid, 5_461)] {
        let file = vec![skip(1); most + 1];
        let bytes = file.as_flattened();
        assert_eq!(time_file(&settings, form, &bytes[12..]), Ok(most as u32));
        let refused = Err(Refused::at(1, bytes.len()));
        assert_eq!(time_file(&settings, form, bytes), refused);
        assert_eq!(time_file(&settings, form, &bytes[..13]), Err(Refused::at(1, 13)));
    }
}

#[test]
fn kinds_of_each_form() {
    let settings = bench_settings(100);
    let held = |form| -> Vec<u8> {
        let kind_good = |kind: &u8| {
            let refused = time_file(&settings, form, &bare(*kind));
            refused != Err(Refused::at(2, 0))
        };
        (0..=255).filter(kind_good).collect()
    };
    assert_eq!(held(Form::Task), [1, 2, 3, 4, 5, 6, 7, 8]);
    assert_eq!(held(Form::Equalised), [1, 2, 3, 4, 5, 6, 8, 9]);
    assert_eq!(held(Form::Laid), [1, 2, 3, 4, 5, 6, 8, 10, 11, 12]);
}

#[test]
fn fields_at_the_edges() {
    let good = [
        skip(1),
        skip(100),
        set(0, 15, 0, u32::MAX),
        set(16, 15, 0, 15),
        set(19, 15, 15, 15),
        set(3, 0, 15, 16),
        read(15, 7),
        write(15, 7),
    ];
    for record in good {
        assert!(task_refused(&[record]).is_ok(), "{record:?}");
    }
}

#[test]
fn fields_past_the_edges() {
    let bad = [
        skip(0),
        skip(1_000_001),
        raw(SKIP, 0, 0, 0, 1, 1),
        raw(SKIP, 1, 0, 0, 0, 1),
        set(4, 0, 0, 0),
        set(15, 0, 0, 0),
        set(20, 0, 0, 0),
        set(32, 0, 0, 0),
        set(0, 0, 1, 0),
        set(16, 0, 1, 0),
        set(1, 16, 0, 0),
        set(1, 0, 16, 0),
        set(17, 0, 0, 16),
        raw(SET, 1, 0, 0, 0, 1),
        read(16, 0),
        read(0, 8),
        raw(WRITE, 1, 0, 0, 0, 0),
        raw(WRITE, 0, 0, 0, 1, 0),
        raw(READ, 0, 0, 0, 0, 1),
    ];
    for record in bad {
        assert_eq!(task_refused(&[skip(1), record]), Err(Refused::at(3, 1)), "{record:?}");
    }
}

#[test]
fn tests_past_the_edges() {
    let blocks = |open: Raw| [open, bare(ELSE), bare(END)];
    assert_eq!(task_refused(&blocks(test(IF, 21, 15, 15, 0))), Ok(1));
    let bad = [
        test(IF, 6, 0, 0, 0),
        test(IF, 22, 0, 0, 0),
        test(IF, 0, 16, 0, 0),
        test(IF, 16, 0, 16, 0),
        test(IF, 0, 0, 0, 1),
        raw(IF, 0, 1, 0, 0, 0),
        test(WHILE, 0, 0, 0, 0),
        test(WHILE, 0, 0, 0, 65_536),
    ];
    for open in bad {
        assert_eq!(task_refused(&blocks(open)), Err(Refused::at(3, 0)));
    }
    let bad = [
        test(CHECK, 0, 0, 0, 1),
        raw(CHECK, 0, 1, 0, 0, 0),
        beat(1_000_001),
        raw(BEAT, 0, 0, 0, 1, 1),
        raw(SAVE, 0, 0, 0, 1, 0),
        raw(ELSE, 1, 0, 0, 0, 0),
        raw(END, 0, 0, 0, 0, 1),
    ];
    for record in bad {
        assert_eq!(laid_refused(&[record]), Err(Refused::at(3, 0)));
    }
    assert_eq!(laid_refused(&[beat(1_000_000), bare(SAVE), test(CHECK, 5, 1, 9, 0)]), Ok(14));
}

#[test]
fn structure() {
    let open = test(IF, 0, 0, 0, 0);
    let round = test(WHILE, 0, 0, 0, 1);
    let cases: [(&[Raw], usize); 9] = [
        (&[bare(ELSE)], 0),
        (&[bare(END)], 0),
        (&[open, bare(END)], 1),
        (&[open, bare(ELSE), bare(ELSE), bare(END)], 2),
        (&[round, bare(ELSE), bare(END)], 1),
        (&[open, round, bare(ELSE)], 2),
        (&[open], 1),
        (&[open, bare(ELSE)], 2),
        (&[round, skip(1)], 2),
    ];
    for (task, index) in cases {
        assert_eq!(task_refused(task), Err(Refused::at(4, index)));
    }
}

#[test]
fn the_first_record_at_fault_decides() {
    let round = test(WHILE, 0, 0, 0, 1);
    let mut task = vec![round; 8];
    task.extend([round, bare(99)]);
    assert_eq!(task_refused(&task), Err(Refused::at(5, 8)));
    task[8] = test(WHILE, 0, 0, 0, 0);
    assert_eq!(task_refused(&task), Err(Refused::at(3, 8)));
    task[3] = bare(ELSE);
    assert_eq!(task_refused(&task), Err(Refused::at(4, 3)));
    task[2] = bare(TIMES);
    assert_eq!(task_refused(&task), Err(Refused::at(2, 2)));
}

#[test]
fn times_that_no_number_holds() {
    let round = test(TIMES, 0, 0, 0, 65_535);
    let mut file = vec![round; 16];
    file.push(skip(1_000_000));
    file.extend([bare(END); 16]);
    let settings = bench_settings(1_000_000);
    let refused = time_file(&settings, Form::Equalised, file.as_flattened());
    assert_eq!(refused, Err(Refused::plain(8)));
    assert_eq!(laid(&settings, &file), Err(Refused::plain(8)));
}

#[test]
fn time_at_the_period() {
    let task = [skip(99), test(WHILE, 0, 0, 0, 1), bare(END)];
    assert_eq!(time_file(&bench_settings(101), Form::Task, task.as_flattened()), Ok(101));
    let refused = Err(Refused::plain(8));
    assert_eq!(time_file(&bench_settings(100), Form::Task, task.as_flattened()), refused);
    assert_eq!(
        equalise(&bench_settings(100), task.as_flattened(), &mut []),
        refused.map(|_| unreachable!())
    );
    assert_eq!(Bench::new().run(&bench_settings(100), Form::Task, &task), Err(Refused::plain(8)));
}

#[test]
fn window_before_period() {
    let small = settings([3, 3, 3, 3, 10], 4, 15, 5);
    assert_eq!(laid(&small, &[skip(6)]), Err(Refused::plain(7)));
    assert_eq!(laid(&small, &[skip(0)]), Err(Refused::at(3, 0)));
}

type Numbers = [Result<(), u8>; 4];

/// The refusals of run, restart, stopping and taking up on a task with
/// buffers of these lengths: variables, inputs, levels, marks, image.
fn with_lengths(lengths: [usize; 5]) -> Numbers {
    let (settings, form, file) = (bench_settings(100), Form::Task, skip(2));
    let v = &mut vec![3; lengths[0]];
    let i = &vec![3; lengths[1]];
    let l = &mut vec![3; lengths[2]];
    let m = &mut vec![3; lengths[3]];
    let image = &mut vec![3; lengths[4]];
    let number = |refused: Refused| refused.number;
    let until = run_until(&settings, form, &file, v, i, l, m, image, 1).map_err(number);
    if until.is_err() {
        assert!(v.iter().chain(&*l).all(|&value| value == 3));
        assert!(m.iter().chain(&*image).all(|&value| value == 3));
    }
    let taken_up = resume(&settings, form, &file, v, i, l, m, image).map_err(number);
    let again = restart(&settings, form, &file, v, i, l, m).map_err(number);
    let whole = run(&settings, form, &file, v, i, l, m).map_err(number);
    [whole.map(drop), again.map(drop), until.map(drop), taken_up.map(drop)]
}

#[test]
fn lent_lengths() {
    let right = [16, 8, 8, 8, 72];
    assert_eq!(with_lengths(right), [Ok(()), Ok(()), Ok(()), Err(11)]);
    for place in 0..5 {
        for wrong in [0, right[place] - 1, right[place] + 1] {
            let mut lengths = right;
            lengths[place] = wrong;
            let plain = if place == 4 { Ok(()) } else { Err(10) };
            assert_eq!(with_lengths(lengths), [plain, plain, Err(10), Err(10)]);
        }
    }
}
