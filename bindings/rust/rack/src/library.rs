//! The functions of `librack.a`, as `include/rack.h` declares them.
//!
//! A slice is a pointer, never null, and a length in elements. The answer is
//! one word, taken apart in `answer.rs`.

/// The calls that write a file: `rack_equalise`, `rack_lay_out` and
/// `rack_prepare`.
pub type Writes = unsafe extern "C" fn(*const u8, usize, *const u8, usize, *mut u8, usize) -> u64;

/// The calls that run from the first record to the end: `rack_run` and
/// `rack_restart`.
pub type Runs = unsafe extern "C" fn(
    *const u8,
    usize,
    u8,
    *const u8,
    usize,
    *mut u32,
    usize,
    *const u32,
    usize,
    *mut u32,
    usize,
    *mut u8,
    usize,
) -> u64;

unsafe extern "C" {
    pub fn rack_time(
        settings: *const u8,
        settings_length: usize,
        form: u8,
        file: *const u8,
        file_length: usize,
    ) -> u64;

    pub fn rack_equalise(
        settings: *const u8,
        settings_length: usize,
        task: *const u8,
        task_length: usize,
        out: *mut u8,
        out_length: usize,
    ) -> u64;

    pub fn rack_lay_out(
        settings: *const u8,
        settings_length: usize,
        equalised: *const u8,
        equalised_length: usize,
        out: *mut u8,
        out_length: usize,
    ) -> u64;

    pub fn rack_prepare(
        settings: *const u8,
        settings_length: usize,
        task: *const u8,
        task_length: usize,
        out: *mut u8,
        out_length: usize,
    ) -> u64;

    pub fn rack_run(
        settings: *const u8,
        settings_length: usize,
        form: u8,
        file: *const u8,
        file_length: usize,
        variables: *mut u32,
        variables_length: usize,
        inputs: *const u32,
        inputs_length: usize,
        levels: *mut u32,
        levels_length: usize,
        marks: *mut u8,
        marks_length: usize,
    ) -> u64;

    pub fn rack_run_until(
        settings: *const u8,
        settings_length: usize,
        form: u8,
        file: *const u8,
        file_length: usize,
        variables: *mut u32,
        variables_length: usize,
        inputs: *const u32,
        inputs_length: usize,
        levels: *mut u32,
        levels_length: usize,
        marks: *mut u8,
        marks_length: usize,
        image: *mut u8,
        image_length: usize,
        stop: u32,
    ) -> u64;

    pub fn rack_resume(
        settings: *const u8,
        settings_length: usize,
        form: u8,
        file: *const u8,
        file_length: usize,
        variables: *mut u32,
        variables_length: usize,
        inputs: *const u32,
        inputs_length: usize,
        levels: *mut u32,
        levels_length: usize,
        marks: *mut u8,
        marks_length: usize,
        image: *const u8,
        image_length: usize,
    ) -> u64;

    pub fn rack_restart(
        settings: *const u8,
        settings_length: usize,
        form: u8,
        file: *const u8,
        file_length: usize,
        variables: *mut u32,
        variables_length: usize,
        inputs: *const u32,
        inputs_length: usize,
        levels: *mut u32,
        levels_length: usize,
        marks: *mut u8,
        marks_length: usize,
    ) -> u64;

    pub fn rack_beat(table: *mut u32, table_length: usize, entry: u32, value: u32) -> u64;

    pub fn rack_look(table: *mut u32, table_length: usize, entry: u32) -> u64;

    pub fn rack_reset(table: *mut u32, table_length: usize, entry: u32, window: u32) -> u64;

    pub fn rack_status(table: *const u32, table_length: usize, entry: u32) -> u64;
}
