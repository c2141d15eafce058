//! The desk's functions as `include/vastrudhil.h` declares them, in its order; what each one does
//! is told there. `tools/declared.py` holds both to the library's source.

pub const TABLE: usize = 5401;
pub const WORDS: usize = 130;
pub const SHEET: usize = 4096;
pub const FIGURES: usize = 7;

pub const LEGS: usize = 0;
pub const W: usize = 1;
pub const NORTH: usize = 2;
pub const EAST: usize = 3;
pub const PRECISION: usize = 4;
pub const AREA: usize = 5;
pub const LOOP: usize = 6;

// SAFETY: these are the library's own declarations. It takes any numbers, keeps no pointer and has
// no state, so a function that is lent only references is safe to call; the others ask that a
// pointer has as many items as the length after it says, and that nothing written is also read.
unsafe extern "C" {
    // distances
    pub safe fn vas_sea_level(elevation: i64, value: &mut u64) -> u32;
    pub safe fn vas_combine(sea: u64, scale: u64, value: &mut u64) -> u32;
    pub safe fn vas_grid(distance: u64, factor: u64, value: &mut u64) -> u32;

    // sines
    pub safe fn vas_table(table: &mut [u32; TABLE]);
    pub safe fn vas_sine(angle: u32, value: &mut i64) -> u32;
    pub safe fn vas_cosine(angle: u32, value: &mut i64) -> u32;
    pub safe fn vas_sine_in(table: &[u32; TABLE], angle: u32, value: &mut i64) -> u32;
    pub safe fn vas_cosine_in(table: &[u32; TABLE], angle: u32, value: &mut i64) -> u32;

    // azimuths
    pub safe fn vas_from_mark(mark: u32, angle: u32, value: &mut u64) -> u32;
    pub safe fn vas_onward(before: u32, angle: u32, value: &mut u64) -> u32;
    pub safe fn vas_misclosure(carried: u32, given: u32, value: &mut i64) -> u32;
    pub safe fn vas_closes_angles(w: i64, n: u64, value: &mut bool) -> u32;
    pub safe fn vas_angle_share(w: i64, j: u64, n: u64, value: &mut i64) -> u32;
    pub safe fn vas_balanced(azimuth: u32, share: i64, value: &mut u64) -> u32;

    // latitude and departure
    pub safe fn vas_latitude(distance: u64, azimuth: u32, value: &mut i64) -> u32;
    pub safe fn vas_departure(distance: u64, azimuth: u32, value: &mut i64) -> u32;
    pub safe fn vas_latitude_in(
        table: &[u32; TABLE],
        distance: u64,
        azimuth: u32,
        value: &mut i64,
    ) -> u32;
    pub safe fn vas_departure_in(
        table: &[u32; TABLE],
        distance: u64,
        azimuth: u32,
        value: &mut i64,
    ) -> u32;

    // closure and compass rule
    pub safe fn vas_closes(north: i64, east: i64, s: u64, value: &mut bool) -> u32;
    pub safe fn vas_precision(north: i64, east: i64, s: u64, value: &mut u64) -> u32;
    pub safe fn vas_share(closure: i64, part: u64, whole: u64, value: &mut i64) -> u32;
    pub fn vas_doubled_area(offsets: *const i64, offsets_len: usize, value: &mut i64) -> u32;

    // the writer of one record
    pub fn vas_write_row(
        out: *mut u8,
        out_len: usize,
        at: usize,
        minute: u32,
        factor: u32,
        place: &mut usize,
        next: &mut usize,
    ) -> u32;
    pub fn vas_write_project(
        out: *mut u8,
        out_len: usize,
        at: usize,
        latitude: u32,
        elevation: i64,
        place: &mut usize,
        next: &mut usize,
    ) -> u32;
    pub fn vas_write_start(
        out: *mut u8,
        out_len: usize,
        at: usize,
        northing: u32,
        easting: u32,
        mark: u32,
        place: &mut usize,
        next: &mut usize,
    ) -> u32;
    pub fn vas_write_leg(
        out: *mut u8,
        out_len: usize,
        at: usize,
        angle: u32,
        distance: u32,
        place: &mut usize,
        next: &mut usize,
    ) -> u32;
    pub fn vas_write_close(
        out: *mut u8,
        out_len: usize,
        at: usize,
        angle: u32,
        northing: u32,
        easting: u32,
        mark: u32,
        place: &mut usize,
        next: &mut usize,
    ) -> u32;

    // a whole tape
    pub fn vas_read(tape: *const u8, tape_len: usize, place: &mut usize) -> u32;
    pub fn vas_traverse(
        tape: *const u8,
        tape_len: usize,
        words: *mut i64,
        words_len: usize,
        place: &mut usize,
        figures: &mut [i64; FIGURES],
    ) -> u32;
    pub fn vas_sheet(
        tape: *const u8,
        tape_len: usize,
        out: *mut u8,
        out_len: usize,
        place: &mut usize,
        used: &mut usize,
    ) -> u32;
    pub fn vas_traverse_in(
        table: &[u32; TABLE],
        tape: *const u8,
        tape_len: usize,
        words: *mut i64,
        words_len: usize,
        place: &mut usize,
        figures: &mut [i64; FIGURES],
    ) -> u32;
    pub fn vas_sheet_in(
        table: &[u32; TABLE],
        tape: *const u8,
        tape_len: usize,
        out: *mut u8,
        out_len: usize,
        place: &mut usize,
        used: &mut usize,
    ) -> u32;
}
