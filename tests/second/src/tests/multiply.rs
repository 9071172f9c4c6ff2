//! A multiply has ticks of its own.

use super::bench::factorial;
use super::*;

/// SET, READ, WRITE and BEAT take 3 ticks and SAVE 10, as on the bench.
fn slow(multiply: u32, h: u32, p: u32) -> [u8; 24] {
    multiplying(wide([3, 3, 3, 3, 10], 4, h, p), multiply)
}

#[test]
fn operations_3_and_19_alone() {
    let settings = slow(20, 40, 1_000);
    for operation in [0, 1, 2, 3, 16, 17, 18, 19] {
        let step = set(operation, 1, 0, 1);
        let ticks = if [3, 19].contains(&operation) { 20 } else { 3 };
        assert_eq!(time_file(&settings, Form::Laid, &step), Ok(ticks));
        assert_eq!(time_file(&bench_settings(1_000), Form::Laid, &step), Ok(3));
        let ended = Bench::new().run(&settings, Form::Laid, &[step]);
        assert_eq!(ended, Ok(Ended { tick: ticks, overran: false }));
    }
    for relation in [3, 19] {
        let sides = [test(IF, relation, 0, 0, 0), bare(ELSE), bare(END)];
        assert_eq!(time_file(&settings, Form::Task, sides.as_flattened()), Ok(1));
    }
}

#[test]
fn the_longest_step_counts_it() {
    for task in [vec![], vec![set(3, 0, 0, 2)]] {
        assert_eq!(prepared(&slow(20, 32, 1_000), &task), Err(Refused::plain(7)));
        assert!(prepared(&slow(20, 33, 1_000), &task).is_ok());
    }
    assert_eq!(prepared(&slow(1, 15, 1_000), &[]), Err(Refused::plain(7)));
    assert!(prepared(&slow(1, 16, 1_000), &[]).is_ok());
}

#[test]
fn sides_and_rounds_are_padded_by_it() {
    let settings = slow(20, 40, 1_000);
    let (multiply, add) = (set(3, 0, 0, 2), set(1, 0, 0, 2));
    let choice = test(IF, 0, 0, 1, 0);
    let sides = [choice, multiply, bare(ELSE), add, bare(END)];
    let even = vec![choice, multiply, bare(ELSE), add, skip(17), bare(END)];
    assert_eq!(equalised(&settings, &sides), Ok(even));
    let rounds = test(TIMES, 0, 0, 1, 2);
    let task = [test(WHILE, 0, 0, 1, 2), multiply, bare(END)];
    let body = [choice, multiply, bare(ELSE), skip(20), bare(END)];
    let even = [&[rounds][..], &body, &[bare(END)]].concat();
    assert_eq!(equalised(&settings, &task), Ok(even));
}

/// After READ a window of 40 has 24 ticks left: one multiply, and then 4.
#[test]
fn it_waits_where_another_set_would_not() {
    let settings = slow(20, 40, 1_000);
    let task = [read(0, 0), set(19, 0, 0, 0), set(3, 0, 0, 2), set(1, 0, 0, 2)];
    let expected = "0 BEAT 1\n3 SAVE\n13 READ 0 0\n16 SET 19 0 0 0\n36 SKIP 4\n40 BEAT 1\n\
        43 SET 3 0 0 2\n63 SET 1 0 0 2\n66 SKIP 14\n80 BEAT 23\n83 end\n";
    assert_eq!(list(&settings, task.as_flattened()), expected);
    let quick = [read(0, 0), set(19, 0, 0, 0), set(1, 0, 0, 2), set(1, 0, 0, 2)];
    let expected = "0 BEAT 1\n3 SAVE\n13 READ 0 0\n16 SET 19 0 0 0\n36 SET 1 0 0 2\n39 SKIP 1\n\
        40 BEAT 1\n43 SET 1 0 0 2\n46 SKIP 34\n80 BEAT 23\n83 end\n";
    assert_eq!(list(&settings, quick.as_flattened()), expected);
}

/// READ, the IF and WRITE take 13 ticks, and each of ten rounds 24 and the last
/// test 1. In each window there is room for one multiply, so that the rounds end
/// at 66, 106 and so on to 426; WRITE ends at 430.
#[test]
fn the_factorial_on_a_slow_board() {
    let settings = slow(20, 40, 1_000);
    let task = factorial();
    assert_eq!(time_file(&settings, Form::Task, task.as_flattened()), Ok(254));
    let listing = list(&settings, task.as_flattened());
    assert!(listing.ends_with("427 WRITE 1 0\n430 SKIP 10\n440 BEAT 14\n443 end\n"));
    let ready = prepared(&settings, &task).unwrap();
    for (input, output) in [(0, 1), (12, 3_628_800)] {
        let mut bench = Bench::fed(input);
        let ended = bench.run(&settings, Form::Laid, &ready);
        assert_eq!(ended, Ok(Ended { tick: 443, overran: false }));
        assert_eq!(bench.levels[0], output);
    }
}
