//! Equalising and laying out in the cases where the window decides.

use super::*;

/// READ takes 4 ticks and every window has a SAVE, so 7 ticks are left in each.
fn narrow() -> Raw {
    settings([3, 4, 3, 3, 10], 1, 20, 400)
}

fn if_zero() -> Raw {
    test(IF, 0, 0, 0, 0)
}

#[test]
fn padding_merges_with_the_sides_own_skip() {
    let task =
        [if_zero(), set(0, 1, 0, 1), skip(4), skip(1), bare(ELSE), skip(2), bare(END), skip(3)];
    let expected =
        vec![if_zero(), set(0, 1, 0, 1), skip(5), bare(ELSE), skip(8), bare(END), skip(3)];
    assert_eq!(equalised(&bench_settings(100), &task), Ok(expected));
}

#[test]
fn while_without_body_has_no_skip() {
    let task = [test(WHILE, 18, 3, 4, 65_535), bare(END)];
    let expected = vec![
        test(TIMES, 18, 3, 4, 65_535),
        test(IF, 18, 3, 4, 0),
        bare(ELSE),
        bare(END),
        bare(END),
    ];
    let settings = bench_settings(100_000);
    assert_eq!(equalised(&settings, &task), Ok(expected));
    let mut out = [0; 60];
    let written = equalise(&settings, task.as_flattened(), &mut out);
    assert_eq!(written, Ok(Written { bytes: 60, time: 65_536 }));
}

#[test]
fn inner_blocks_first() {
    let task = [test(WHILE, 1, 0, 0, 2), if_zero(), skip(9), bare(ELSE), bare(END), bare(END)];
    let expected = vec![
        test(TIMES, 1, 0, 0, 2),
        test(IF, 1, 0, 0, 0),
        if_zero(),
        skip(9),
        bare(ELSE),
        skip(9),
        bare(END),
        bare(ELSE),
        skip(10),
        bare(END),
        bare(END),
    ];
    assert_eq!(equalised(&bench_settings(100), &task), Ok(expected));
}

#[test]
fn filled_side_holds_beat_and_save() {
    let task = [if_zero(), read(1, 1), read(2, 2), bare(ELSE), bare(END)];
    let expected = "0 BEAT 1\n3 SAVE\n13 IF 0 0 0 0\n14 READ 1 1\n18 SKIP 2\n20 BEAT 1\n\
        23 SAVE\n33 READ 2 2\n14 ELSE\n14 SKIP 6\n20 BEAT 1\n23 SAVE\n33 SKIP 4\n37 END\n\
        37 SKIP 3\n40 BEAT 18\n43 end\n";
    assert_eq!(list(&narrow(), task.as_flattened()), expected);
}

#[test]
fn filling_goes_on_from_a_window_edge() {
    let file = [
        if_zero(),
        set(0, 1, 0, 1),
        set(0, 1, 0, 2),
        bare(ELSE),
        set(0, 1, 0, 1),
        set(0, 1, 0, 2),
        set(0, 1, 0, 3),
        bare(END),
    ];
    let expected = vec![
        beat(1),
        bare(SAVE),
        if_zero(),
        set(0, 1, 0, 1),
        set(0, 1, 0, 2),
        beat(1),
        bare(SAVE),
        skip(3),
        bare(ELSE),
        set(0, 1, 0, 1),
        set(0, 1, 0, 2),
        beat(1),
        bare(SAVE),
        set(0, 1, 0, 3),
        bare(END),
        skip(4),
        beat(18),
    ];
    assert_eq!(laid(&narrow(), &file), Ok(expected));
}

#[test]
fn sides_that_meet_on_an_edge_leave_the_commands_to_what_follows() {
    let file = [if_zero(), skip(6), bare(ELSE), skip(2), bare(END)];
    let start = [beat(1), bare(SAVE), if_zero(), skip(6), bare(ELSE), skip(6), bare(END)];
    let mut alone = start.to_vec();
    alone.push(beat(19));
    assert_eq!(laid(&narrow(), &file), Ok(alone));
    let mut more = file.to_vec();
    more.push(skip(1));
    let mut followed = start.to_vec();
    followed.extend([beat(1), bare(SAVE), skip(7), beat(18)]);
    assert_eq!(laid(&narrow(), &more), Ok(followed));
}

#[test]
fn inner_sides_wait_and_outer_side_is_filled() {
    // The inner sides meet at 37; the outer second side ends at 14.
    let file = [
        if_zero(),
        test(IF, 1, 1, 2, 0),
        read(3, 3),
        read(4, 4),
        bare(ELSE),
        skip(1),
        bare(END),
        bare(ELSE),
        bare(END),
    ];
    let fill = [beat(1), bare(SAVE), skip(4)];
    let mut expected = vec![beat(1), bare(SAVE), if_zero(), test(IF, 1, 1, 2, 0)];
    expected.extend([read(3, 3), skip(1), beat(1), bare(SAVE), read(4, 4), bare(ELSE), skip(5)]);
    expected.extend(fill);
    expected.extend([bare(END), bare(ELSE), skip(6)]);
    expected.extend(fill);
    expected.extend([bare(END), skip(3), beat(18)]);
    assert_eq!(laid(&narrow(), &file), Ok(expected));
}

#[test]
fn skip_is_split_over_windows() {
    let file = [skip(5), skip(20)];
    let expected =
        vec![beat(1), bare(SAVE), skip(7), beat(1), skip(17), beat(1), skip(17), beat(2)];
    assert_eq!(laid(&bench_settings(100), &file), Ok(expected));
}

#[test]
fn waiting_merges_with_the_skip_before() {
    let file = [skip(5), set(0, 0, 0, 1)];
    let expected = vec![beat(1), bare(SAVE), skip(7), beat(1), set(0, 0, 0, 1), skip(14), beat(3)];
    assert_eq!(laid(&bench_settings(100), &file), Ok(expected));
}

#[test]
fn rounds_unroll_and_merge() {
    let file =
        [test(TIMES, 0, 0, 9, 3), skip(2), bare(END), test(TIMES, 2, 1, 4, 65_535), bare(END)];
    let expected = vec![
        beat(1),
        bare(SAVE),
        skip(6),
        test(CHECK, 0, 0, 9, 0),
        beat(1),
        test(CHECK, 2, 1, 4, 0),
        skip(16),
        beat(3),
    ];
    assert_eq!(laid(&bench_settings(100), &file), Ok(expected));
}

#[test]
fn empty_rounds_within_rounds_cost_one_tick_each() {
    let file = [test(TIMES, 0, 0, 9, 65_535), test(TIMES, 0, 0, 9, 65_535), bare(END), bare(END)];
    let settings = settings([1, 1, 1, 1, 1], 1, 65_535, 1_000_000);
    assert_eq!(time_file(&settings, Form::Equalised, file.as_flattened()), Ok(65_536));
    assert_eq!(laid(&settings, &file), Err(Refused::plain(9)));
    let ended = Bench::new().run(&settings, Form::Equalised, &file);
    assert_eq!(ended, Ok(Ended { tick: 65_536, overran: false }));
}

#[test]
fn the_total_is_found_past_the_longest_result() {
    // 6,000 rounds of one SET: too long a result, but first a total too large.
    let file = [test(TIMES, 0, 0, 9, 6_000), set(0, 1, 0, 1), bare(END)];
    let with = |period| settings([1, 1, 1, 1, 1], 1, 1_000, period);
    // 998 steps in each window, 6,001 steps in all: 6 windows and 13 + 2 ticks, then the tail.
    assert_eq!(laid(&with(7_001), &file), Err(Refused::plain(9)));
    assert_eq!(laid(&with(7_000), &file), Err(Refused::plain(8)));
}

#[test]
fn deep_nesting_stays_small() {
    let mut file = Vec::new();
    for depth in 0..16 {
        file.extend([if_zero(), skip(depth + 1)]);
    }
    for depth in 0..16 {
        file.extend([bare(ELSE), read(1, depth % 8), bare(END)]);
    }
    let settings = settings([3, 4, 3, 3, 10], 3, 20, 1_000);
    let ready = laid(&settings, &file).unwrap();
    assert!(ready.len() < 500);
    let total = time_file(&settings, Form::Laid, ready.as_flattened()).unwrap();
    let mut out = vec![0; ROOM];
    assert_eq!(lay_out(&settings, file.as_flattened(), &mut out).unwrap().time, total);
}

#[test]
fn a_result_may_fill_its_buffer_exactly() {
    let settings = bench_settings(100);
    for (room, fits) in [(48, true), (47, false), (0, false)] {
        let mut out = vec![1; room];
        let written = lay_out(&settings, &[], &mut out);
        assert_eq!(written.is_ok(), fits);
        if !fits {
            assert_eq!(written, Err(Refused::plain(9)));
            assert!(out.iter().all(|&byte| byte == 1));
        }
    }
}

#[test]
fn the_longest_result() {
    // Two commands, the steps, a tail and the last BEAT: 5,461 records or one more.
    let settings = settings([1, 1, 1, 1, 1], 1, 60_000, 1_000_000);
    let steps = |count| vec![set(0, 1, 0, 1); count];
    assert_eq!(laid(&settings, &steps(5_457)).unwrap().len(), 5_461);
    assert_eq!(laid(&settings, &steps(5_458)), Err(Refused::plain(9)));
}
