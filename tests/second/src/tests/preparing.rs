//! Preparing: what the one call answers, and in which order it refuses.

use super::bench::factorial;
use super::*;

/// The answer in a buffer of this length; a refusal must leave it as it was.
fn in_room(settings: &[u8], task: &[Raw], room: usize) -> Result<Written, Refused> {
    let mut out = vec![0xA5; room];
    let written = prepare(settings, task.as_flattened(), &mut out);
    let bytes = written.map_or(0, |written| written.bytes);
    assert!(out[bytes..].iter().all(|&byte| byte == 0xA5));
    written
}

#[test]
fn bytes_and_total() {
    let settings = bench_settings(200);
    assert_eq!(in_room(&settings, &[], ROOM), Ok(Written { bytes: 48, time: 23 }));
    let written = Ok(Written { bytes: 1_080, time: 143 });
    assert_eq!(in_room(&settings, &factorial(), ROOM), written);
    assert_eq!(in_room(&settings, &factorial(), 1_080), written);
}

#[test]
fn room_is_the_laid_files_alone() {
    let settings = bench_settings(200);
    for room in [0, 203, 204, 1_079] {
        assert_eq!(in_room(&settings, &factorial(), room), Err(Refused::plain(9)));
    }
}

#[test]
fn a_fault_of_the_task_comes_first() {
    let narrow = settings([3, 3, 3, 3, 10], 4, 15, 5);
    assert_eq!(in_room(&narrow, &[skip(6), bare(END)], 0), Err(Refused::at(4, 1)));
    assert_eq!(in_room(&narrow, &[bare(TIMES), skip(6)], 0), Err(Refused::at(2, 0)));
    assert_eq!(in_room(&narrow, &[skip(1); 257], 0), Err(Refused::at(1, 3_084)));
    assert_eq!(prepare(&narrow[..11], &[0; 11], &mut []), Err(Refused::plain(6)));
}

#[test]
fn the_tasks_time_then_the_window_then_the_total() {
    let with = |h, p| settings([3, 3, 3, 3, 10], 4, h, p);
    assert_eq!(in_room(&with(15, 5), &[skip(6)], 0), Err(Refused::plain(8)));
    assert_eq!(in_room(&with(15, 6), &[skip(6)], 0), Err(Refused::plain(7)));
    assert_eq!(in_room(&with(20, 22), &[skip(6)], 0), Err(Refused::plain(8)));
    assert_eq!(in_room(&with(20, 23), &[skip(6)], 0), Err(Refused::plain(9)));
    assert_eq!(in_room(&with(20, 23), &[skip(6)], 48), Ok(Written { bytes: 48, time: 23 }));
}

/// Of all tasks these grow most: loops that hold loops.
#[test]
fn the_longest_equalised_task() {
    let nest = [vec![test(WHILE, 0, 0, 1, 1); 8], vec![bare(END); 8]].concat();
    let task = nest.repeat(16);
    let settings = settings([1, 1, 1, 1, 1], 1, 60_000, 1_000_000);
    assert_eq!(equalised(&settings, &task).unwrap().len(), 752);
    assert!(prepared(&settings, &task).is_ok());
}

#[test]
fn the_longest_laid_task() {
    let settings = settings([1, 1, 1, 1, 1], 1, 60_000, 1_000_000);
    let task = |steps| {
        let round = vec![set(1, 0, 0, 1); 172];
        [vec![write(0, 0); steps], vec![test(WHILE, 2, 0, 9, 31)], round, vec![bare(END)]].concat()
    };
    assert_eq!(prepared(&settings, &task(0)).unwrap().len(), 5_461);
    assert_eq!(prepared(&settings, &task(1)), Err(Refused::plain(9)));
}
