//! Vastrudhil, the proved traverse desk, for programs in Rust.
//!
//! A *tape* is a list of bytes with the zone rows, the project, the start, the legs and the close
//! of a survey traverse. The desk answers it with the adjusted traverse, or refuses it with a
//! number and a place. The rules are those of `docs/RULES.md`; that the desk keeps them is proved,
//! and this crate only hands its functions on, in memory that Rust looks after.
//!
//! ```
//! # fn main() -> Result<(), vastrudhil::Refusal> {
//! use vastrudhil::{sheet, TapeWriter};
//!
//! const DEGREE: u32 = 36_000;
//! let mut yard = TapeWriter::new();
//! yard.row(2650, 10_000_572)? // minute of latitude, scale factor
//!     .project(2650, 1_196)? // mean latitude, mean elevation
//!     .start(5_000_000, 200_000_000, 0)? // northing, easting, azimuth to the mark
//!     .leg(180 * DEGREE, 1_000_000)? // angle right, distance
//!     .leg(270 * DEGREE, 1_000_020)?
//!     .leg(270 * DEGREE, 1_000_010)?
//!     .leg(270 * DEGREE, 1_000_000)?
//!     .close(90 * DEGREE + 5, 5_000_000, 200_000_000, 0)?;
//!
//! let text = sheet(yard.tape())?;
//! assert!(text.starts_with("CLOSE W=+0.5 N=-0.01 E=+0.02 P=178886\n"));
//! assert!(text.ends_with("AREA2 2000020.0000\n"));
//! # Ok(())
//! # }
//! ```
//!
//! Every function takes any numbers and any bytes: what is out of range is refused. None keeps a
//! state, so any number of threads may call at once.
//!
//! # Units
//!
//! Angles and azimuths are in tenths of a second, below 12,960,000, azimuths clockwise from south;
//! coordinates, closures, latitudes and departures in hundredths of a foot; distances in
//! thousandths of a foot; factors in ten-millionths; sines in units of the ninth decimal.
//!
//! A latitude is how far north and a departure how far east, minus for south and west. A closure is
//! the computed end less the fixed end.
//!
//! # Many tapes
//!
//! A function that needs sines reads the desk's table of them where it stands in the library. A
//! program that works many tapes may make a [`Desk`], which holds a table of its own, and call its
//! methods: they answer the same. Threads may share one desk.
//!
//! ```
//! use vastrudhil::{Desk, Refusal};
//!
//! fn sheets(tapes: &[Vec<u8>]) -> Vec<Result<String, Refusal>> {
//!     let desk = Desk::new();
//!     tapes.iter().map(|tape| desk.sheet(tape)).collect()
//! }
//! # let tapes = [include_bytes!("../../examples/yard.tape").to_vec(), Vec::new()];
//! # let alone: Vec<_> = tapes.iter().map(|tape| vastrudhil::sheet(tape)).collect();
//! # assert_eq!(sheets(&tapes), alone);
//! ```
//!
//! The functions that end in `_in` do what those methods do, by a [`Table`] that is lent to them.

#![deny(missing_docs)]

mod sys;

use std::error::Error;
use std::fmt;

/// How many bytes a lent sheet must have: [`sheet_into`].
pub const SHEET: usize = sys::SHEET;

/// Why the desk does not answer, and where (`docs/RULES.md`, "Nine refusals").
///
/// The first that applies is given: 1, then 2 to 7 in the order of the tape, then 8, then 9.
#[derive(Clone, Copy, Debug, PartialEq, Eq, Hash)]
pub struct Refusal {
    /// Which of the nine refusals it is: 1 to 9.
    pub number: u32,
    /// The place it is about, as bytes of the tape from 0; 0 for an arithmetic step and for lent
    /// memory that is too small.
    pub place: usize,
}

impl Refusal {
    /// The refusal in the words of docs/REFUSALS.md, which says what to do about it.
    pub fn reason(&self) -> &'static str {
        match self.number {
            1 => "the lent memory is too small",
            2 => "the tape ends inside a record, or before the close",
            3 => {
                "out of order: \
                 rows come first, then one project, one start, 1 to 64 legs and one close"
            }
            4 => "a number is out of range",
            5 => "each row is one minute above the row before, and there are at most 600 rows",
            6 => "this is the 65th leg, and there are at most 64",
            7 => "no row has the mean latitude",
            8 => "the angular misclosure is above 10 seconds for each angle",
            9 => "the position closure is above 1 in 5,000 of the distance",
            _ => "no refusal of the desk",
        }
    }
}

impl fmt::Display for Refusal {
    fn fmt(&self, f: &mut fmt::Formatter<'_>) -> fmt::Result {
        let Refusal { number, place } = self;
        write!(f, "refusal {number} at {place}: {}", self.reason())
    }
}

impl Error for Refusal {}

/// A call that tells a place; 0 is the number of an accepted input.
fn placed(call: impl FnOnce(&mut usize) -> u32) -> Result<(), Refusal> {
    let mut place = 0;
    match call(&mut place) {
        0 => Ok(()),
        number => Err(Refusal { number, place }),
    }
}

/// A call that tells a value, and is refused at no place but 0.
fn valued<T: Default>(call: impl FnOnce(&mut T) -> u32) -> Result<T, Refusal> {
    let mut value = T::default();
    placed(|_| call(&mut value))?;
    Ok(value)
}

// ---- distances (docs/RULES.md, "Distances")

/// The sea level factor of a mean elevation of `-1_000..=20_000` feet.
pub fn sea_level(elevation: i64) -> Result<u64, Refusal> {
    valued(|value| sys::vas_sea_level(elevation, value))
}

/// The combined factor of a sea level factor and a scale factor, each `9_990_000..=10_010_000`: the
/// nearest ten-millionth of their product.
pub fn combine(sea: u64, scale: u64) -> Result<u64, Refusal> {
    valued(|value| sys::vas_combine(sea, scale, value))
}

/// The grid distance of a measured one of `1_000..=20_000_000`, by a combined factor of
/// `9_980_000..=10_020_010`.
pub fn grid(distance: u64, factor: u64) -> Result<u64, Refusal> {
    valued(|value| sys::vas_grid(distance, factor, value))
}

// ---- sines (docs/RULES.md, "Sines")

/// The desk's own table of sines, one for every whole minute from 0 to 90 degrees.
///
/// The library does not check a table that is lent to it. A `Table` is only made filled, and what
/// it holds cannot be changed, so that what is answered with it is what the desk answers.
#[derive(Clone, PartialEq, Eq)]
pub struct Table(Box<[u32; sys::TABLE]>);

impl Table {
    /// The table, in memory of its own.
    pub fn new() -> Self {
        let mut table = Box::new([0; sys::TABLE]);
        sys::vas_table(&mut table);
        Table(table)
    }

    /// Its entries: the sine of 0 minutes first, that of 90 degrees last.
    pub fn entries(&self) -> &[u32] {
        &self.0[..]
    }
}

impl Default for Table {
    fn default() -> Self {
        Self::new()
    }
}

/// Without its entries: every table has the same 5,401.
impl fmt::Debug for Table {
    fn fmt(&self, f: &mut fmt::Formatter<'_>) -> fmt::Result {
        f.debug_struct("Table").finish_non_exhaustive()
    }
}

/// The sine of an angle.
pub fn sine(angle: u32) -> Result<i64, Refusal> {
    valued(|value| sys::vas_sine(angle, value))
}

/// The cosine of an angle.
pub fn cosine(angle: u32) -> Result<i64, Refusal> {
    valued(|value| sys::vas_cosine(angle, value))
}

/// [`sine`] by a lent table.
pub fn sine_in(table: &Table, angle: u32) -> Result<i64, Refusal> {
    valued(|value| sys::vas_sine_in(&table.0, angle, value))
}

/// [`cosine`] by a lent table.
pub fn cosine_in(table: &Table, angle: u32) -> Result<i64, Refusal> {
    valued(|value| sys::vas_cosine_in(&table.0, angle, value))
}

// ---- azimuths (docs/RULES.md, "Azimuths and legs")

/// The azimuth of leg 1, from the azimuth to the mark and the angle right.
pub fn from_mark(mark: u32, angle: u32) -> Result<u64, Refusal> {
    valued(|value| sys::vas_from_mark(mark, angle, value))
}

/// The azimuth of each next leg, and the closing one, from the azimuth before and the angle right.
pub fn onward(before: u32, angle: u32) -> Result<u64, Refusal> {
    valued(|value| sys::vas_onward(before, angle, value))
}

/// The angular misclosure W: carried less given, above minus half a circle and at most half a
/// circle.
pub fn misclosure(carried: u32, given: u32) -> Result<i64, Refusal> {
    valued(|value| sys::vas_misclosure(carried, given, value))
}

/// Whether a misclosure of size up to 6,480,000 is within its limit over `n` legs, `1..=64`.
pub fn closes_angles(w: i64, n: u64) -> Result<bool, Refusal> {
    valued(|value| sys::vas_closes_angles(w, n, value))
}

/// The share of a misclosure of size up to 6,480,000 at the `j`-th of `n` + 1 angles, `n` of
/// `1..=64` and `j` of `0..=n + 1`.
pub fn angle_share(w: i64, j: u64, n: u64) -> Result<i64, Refusal> {
    valued(|value| sys::vas_angle_share(w, j, n, value))
}

/// The balanced azimuth: the carried one less a share of size up to 6,480,000.
pub fn balanced(azimuth: u32, share: i64) -> Result<u64, Refusal> {
    valued(|value| sys::vas_balanced(azimuth, share, value))
}

// ---- latitude and departure (docs/RULES.md, "Azimuths and legs")

/// The latitude, how far north, of a grid distance of `0..=20_100_000` along an azimuth.
pub fn latitude(distance: u64, azimuth: u32) -> Result<i64, Refusal> {
    valued(|value| sys::vas_latitude(distance, azimuth, value))
}

/// The departure, how far east, of a grid distance of `0..=20_100_000` along an azimuth.
pub fn departure(distance: u64, azimuth: u32) -> Result<i64, Refusal> {
    valued(|value| sys::vas_departure(distance, azimuth, value))
}

/// [`latitude`] by a lent table.
pub fn latitude_in(table: &Table, distance: u64, azimuth: u32) -> Result<i64, Refusal> {
    valued(|value| sys::vas_latitude_in(&table.0, distance, azimuth, value))
}

/// [`departure`] by a lent table.
pub fn departure_in(table: &Table, distance: u64, azimuth: u32) -> Result<i64, Refusal> {
    valued(|value| sys::vas_departure_in(&table.0, distance, azimuth, value))
}

// ---- closure and compass rule (docs/RULES.md, "Closure and compass rule")

/// Whether closures of size up to 1,200,000,000 are within the limit, for a sum `s` of grid
/// distances of `1..=1_300_000_000`.
pub fn closes(north: i64, east: i64, s: u64) -> Result<bool, Refusal> {
    valued(|value| sys::vas_closes(north, east, s, value))
}

/// The precision number of closures of size up to 26,000, for a sum `s` of grid distances of
/// `1..=1_300_000_000`; 0 where both closures are 0.
pub fn precision(north: i64, east: i64, s: u64) -> Result<u64, Refusal> {
    valued(|value| sys::vas_precision(north, east, s, value))
}

/// The share of a closure of size up to 26,000 at a part, `0..=whole`, of a whole,
/// `1..=1_300_000_000`.
pub fn share(closure: i64, part: u64, whole: u64) -> Result<i64, Refusal> {
    valued(|value| sys::vas_share(closure, part, whole, value))
}

/// The doubled area of 1 to 64 stations, clockwise positive: `[northing, easting]` of each, as
/// offsets of size up to 130,000,000.
pub fn doubled_area(offsets: &[[i64; 2]]) -> Result<i64, Refusal> {
    let words = offsets.as_flattened();
    // SAFETY: pointer and length are those of one list.
    valued(|value| unsafe { sys::vas_doubled_area(words.as_ptr(), words.len(), value) })
}

// ---- writing a tape (docs/RULES.md, "The writer")

/// A tape under way: records are put one after the other, each by the desk's own writer.
///
/// The writer tests each record by itself. A refused record leaves the tape as it was. Whether the
/// records make a tape together, [`read`] says. The bytes of each record stand in `docs/RULES.md`,
/// "The tape"; the longest tape that reads has 4,811.
#[derive(Clone, Debug, Default, PartialEq, Eq)]
pub struct TapeWriter {
    bytes: Vec<u8>,
}

impl TapeWriter {
    /// An empty tape.
    pub fn new() -> Self {
        Self::default()
    }

    /// A row of the zone table: minute `0..=5_400`, scale factor `9_990_000..=10_010_000`.
    pub fn row(&mut self, minute: u32, factor: u32) -> Result<&mut Self, Refusal> {
        // SAFETY: `put` lends pointer and length of one list.
        self.put(|out, len, at, place, next| unsafe {
            sys::vas_write_row(out, len, at, minute, factor, place, next)
        })
    }

    /// The project: its mean latitude `0..=5_400` in minutes, its mean elevation
    /// `-1_000..=20_000` in feet.
    pub fn project(&mut self, latitude: u32, elevation: i64) -> Result<&mut Self, Refusal> {
        // SAFETY: `put` lends pointer and length of one list.
        self.put(|out, len, at, place, next| unsafe {
            sys::vas_write_project(out, len, at, latitude, elevation, place, next)
        })
    }

    /// The start: a fixed point of `0..=1_000_000_000` each way, and the azimuth to the mark.
    pub fn start(&mut self, northing: u32, easting: u32, mark: u32) -> Result<&mut Self, Refusal> {
        // SAFETY: `put` lends pointer and length of one list.
        self.put(|out, len, at, place, next| unsafe {
            sys::vas_write_start(out, len, at, northing, easting, mark, place, next)
        })
    }

    /// A leg: its angle right, its measured distance `1_000..=20_000_000`.
    pub fn leg(&mut self, angle: u32, distance: u32) -> Result<&mut Self, Refusal> {
        // SAFETY: `put` lends pointer and length of one list.
        self.put(|out, len, at, place, next| unsafe {
            sys::vas_write_leg(out, len, at, angle, distance, place, next)
        })
    }

    /// The close: the closing angle, the fixed end of `0..=1_000_000_000` each way, and the azimuth
    /// to the closing mark.
    pub fn close(
        &mut self,
        angle: u32,
        northing: u32,
        easting: u32,
        mark: u32,
    ) -> Result<&mut Self, Refusal> {
        // SAFETY: `put` lends pointer and length of one list.
        self.put(|out, len, at, place, next| unsafe {
            sys::vas_write_close(out, len, at, angle, northing, easting, mark, place, next)
        })
    }

    /// The tape so far.
    pub fn tape(&self) -> &[u8] {
        &self.bytes
    }

    /// The tape, given away.
    pub fn into_tape(self) -> Vec<u8> {
        self.bytes
    }

    /// Makes room for the longest record, has one written, and keeps what it filled: nothing on a
    /// refusal.
    fn put(
        &mut self,
        write: impl FnOnce(*mut u8, usize, usize, &mut usize, &mut usize) -> u32,
    ) -> Result<&mut Self, Refusal> {
        const LONGEST: usize = 17;
        let at = self.bytes.len();
        self.bytes.resize(at + LONGEST, 0);
        let out = &mut self.bytes[..];
        let mut next = 0;
        let written = placed(|place| write(out.as_mut_ptr(), out.len(), at, place, &mut next));
        self.bytes.truncate(if written.is_ok() { next } else { at });
        written.map(|()| self)
    }
}

// ---- a whole tape

/// The reading: whether the bytes are a tape, by refusals 2 to 7.
///
/// No function gives the fields of a tape back: a program that wants them reads the bytes, by the
/// table in `docs/RULES.md`, "The tape".
pub fn read(tape: &[u8]) -> Result<(), Refusal> {
    // SAFETY: pointer and length are those of one list.
    placed(|place| unsafe { sys::vas_read(tape.as_ptr(), tape.len(), place) })
}

/// An adjusted traverse.
#[derive(Clone, Debug, PartialEq, Eq)]
pub struct Traverse {
    /// W, the angular misclosure.
    pub w: i64,
    /// The closure in northing: the computed end less the fixed end.
    pub north: i64,
    /// The closure in easting: the computed end less the fixed end.
    pub east: i64,
    /// The precision number, 1 in so many; 0 where both closures are 0.
    pub precision: u64,
    /// The doubled area of a loop in 0.0001 square foot, clockwise positive.
    pub doubled_area: Option<i64>,
    legs: usize,
    stations: [[i64; 2]; sys::WORDS / 2],
}

impl Traverse {
    /// The number of legs, 1 to 64.
    pub fn legs(&self) -> usize {
        self.legs
    }

    /// The adjusted `[northing, easting]` of every station, from the fixed start to the fixed end:
    /// one more than there are legs.
    pub fn stations(&self) -> &[[i64; 2]] {
        &self.stations[..=self.legs]
    }
}

/// The traverse that a call adjusts, from the words and figures that it fills.
fn adjusted(
    call: impl FnOnce(*mut i64, usize, &mut usize, &mut [i64; sys::FIGURES]) -> u32,
) -> Result<Traverse, Refusal> {
    let mut stations = [[0; 2]; sys::WORDS / 2];
    let mut figures = [0; sys::FIGURES];
    let words = stations.as_flattened_mut();
    placed(|place| call(words.as_mut_ptr(), words.len(), place, &mut figures))?;
    Ok(Traverse {
        w: figures[sys::W],
        north: figures[sys::NORTH],
        east: figures[sys::EAST],
        precision: figures[sys::PRECISION] as u64,
        doubled_area: (figures[sys::LOOP] == 1).then_some(figures[sys::AREA]),
        legs: figures[sys::LEGS] as usize,
        stations,
    })
}

/// The adjusted traverse of a tape, or one of refusals 2 to 9.
pub fn traverse(tape: &[u8]) -> Result<Traverse, Refusal> {
    let (tape, tape_len) = (tape.as_ptr(), tape.len());
    // SAFETY: pointers and lengths are those of the tape, and of a list that `adjusted` lends.
    adjusted(|words, len, place, figures| unsafe {
        sys::vas_traverse(tape, tape_len, words, len, place, figures)
    })
}

/// [`traverse`] by a lent table.
pub fn traverse_in(table: &Table, tape: &[u8]) -> Result<Traverse, Refusal> {
    let (tape, tape_len) = (tape.as_ptr(), tape.len());
    // SAFETY: as in `traverse`.
    adjusted(|words, len, place, figures| unsafe {
        sys::vas_traverse_in(&table.0, tape, tape_len, words, len, place, figures)
    })
}

/// The text that a call writes at the front of `out`.
fn shown(
    out: &mut [u8],
    call: impl FnOnce(*mut u8, usize, &mut usize, &mut usize) -> u32,
) -> Result<&str, Refusal> {
    let mut used = 0;
    placed(|place| call(out.as_mut_ptr(), out.len(), place, &mut used))?;
    Ok(std::str::from_utf8(&out[..used]).expect("a sheet is in ASCII"))
}

/// The sheet of a tape, or one of refusals 2 to 9.
pub fn sheet(tape: &[u8]) -> Result<String, Refusal> {
    sheet_into(tape, &mut [0; SHEET]).map(str::to_owned)
}

/// [`sheet`] by a lent table.
pub fn sheet_in(table: &Table, tape: &[u8]) -> Result<String, Refusal> {
    sheet_into_in(table, tape, &mut [0; SHEET]).map(str::to_owned)
}

/// The sheet of a tape, written at the front of lent memory of [`SHEET`] bytes or more; less is
/// refused with 1. What stands after the text is left as it was, and on a refusal all of it is.
pub fn sheet_into<'a>(tape: &[u8], out: &'a mut [u8]) -> Result<&'a str, Refusal> {
    let (tape, tape_len) = (tape.as_ptr(), tape.len());
    // SAFETY: pointers and lengths are those of the tape, and of `out`, which `shown` lends on.
    shown(out, |out, len, place, used| unsafe {
        sys::vas_sheet(tape, tape_len, out, len, place, used)
    })
}

/// [`sheet_into`] by a lent table.
pub fn sheet_into_in<'a>(
    table: &Table,
    tape: &[u8],
    out: &'a mut [u8],
) -> Result<&'a str, Refusal> {
    let (tape, tape_len) = (tape.as_ptr(), tape.len());
    // SAFETY: as in `sheet_into`.
    shown(out, |out, len, place, used| unsafe {
        sys::vas_sheet_in(&table.0, tape, tape_len, out, len, place, used)
    })
}

// ---- many tapes

/// The desk with its table of sines, for programs that work many tapes.
///
/// Each method answers what the function of the same name answers, for every input. The function
/// reads the table of the library; a desk has its own, in 21 KB that do not move with it. No method
/// changes a desk, so threads may share one by reference. Steps that need no sine are functions
/// only.
///
/// ```
/// # fn main() -> Result<(), vastrudhil::Refusal> {
/// use std::thread;
/// use vastrudhil::{traverse, Desk};
///
/// let desk = Desk::new();
/// let yard = include_bytes!("../../examples/yard.tape");
/// let adjusted = desk.traverse(yard)?;
/// assert_eq!(adjusted.precision, 178_886);
/// assert_eq!(Ok(&adjusted), traverse(yard).as_ref());
///
/// thread::scope(|scope| {
///     for _ in 0..2 {
///         scope.spawn(|| assert_eq!(desk.traverse(yard).as_ref(), Ok(&adjusted)));
///     }
/// });
/// # Ok(())
/// # }
/// ```
#[derive(Clone, Debug, Default)]
pub struct Desk {
    table: Table,
}

impl Desk {
    /// A desk, with a table of its own.
    pub fn new() -> Self {
        Self::default()
    }

    /// The table, to be lent to the functions that end in `_in`.
    pub fn table(&self) -> &Table {
        &self.table
    }

    /// The adjusted traverse of a tape, or one of refusals 2 to 9: [`traverse`].
    pub fn traverse(&self, tape: &[u8]) -> Result<Traverse, Refusal> {
        traverse_in(&self.table, tape)
    }

    /// The sheet of a tape, or one of refusals 2 to 9: [`sheet`].
    pub fn sheet(&self, tape: &[u8]) -> Result<String, Refusal> {
        sheet_in(&self.table, tape)
    }

    /// The sheet of a tape, written at the front of lent memory: [`sheet_into`].
    pub fn sheet_into<'a>(&self, tape: &[u8], out: &'a mut [u8]) -> Result<&'a str, Refusal> {
        sheet_into_in(&self.table, tape, out)
    }

    /// The sine of an angle: [`sine`].
    pub fn sine(&self, angle: u32) -> Result<i64, Refusal> {
        sine_in(&self.table, angle)
    }

    /// The cosine of an angle: [`cosine`].
    pub fn cosine(&self, angle: u32) -> Result<i64, Refusal> {
        cosine_in(&self.table, angle)
    }

    /// The latitude of a grid distance along an azimuth: [`latitude`].
    pub fn latitude(&self, distance: u64, azimuth: u32) -> Result<i64, Refusal> {
        latitude_in(&self.table, distance, azimuth)
    }

    /// The departure of a grid distance along an azimuth: [`departure`].
    pub fn departure(&self, distance: u64, azimuth: u32) -> Result<i64, Refusal> {
        departure_in(&self.table, distance, azimuth)
    }
}
