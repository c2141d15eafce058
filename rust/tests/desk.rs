//! The crate answers as docs/RULES.md says: its printed figures, its printed sheet, its refusals.

use std::sync::Barrier;
use std::thread;

use vastrudhil::*;

const DEGREE: u32 = 36_000;
const MINUTE: u32 = 600;

/// A refusal, as every failed call answers it.
fn refused<T>(number: u32, place: usize) -> Result<T, Refusal> {
    Err(Refusal { number, place })
}

/// The tape of the printed sheet, up to its legs: rows, project and start.
fn begun() -> TapeWriter {
    let mut tape = TapeWriter::new();
    tape.row(2650, 10_000_572)
        .and_then(|tape| tape.row(2651, 10_000_528))
        .and_then(|tape| tape.project(2650, 1_196))
        .and_then(|tape| tape.start(5_000_000, 200_000_000, 0))
        .expect("fields in range");
    tape
}

/// The printed tape with another close. The close stands at byte 68.
fn closing(angle: u32, northing: u32, easting: u32, mark: u32) -> Vec<u8> {
    let mut tape = begun();
    tape.leg(180 * DEGREE, 1_000_000)
        .and_then(|tape| tape.leg(270 * DEGREE, 1_000_020))
        .and_then(|tape| tape.leg(270 * DEGREE, 1_000_010))
        .and_then(|tape| tape.leg(270 * DEGREE, 1_000_000))
        .and_then(|tape| tape.close(angle, northing, easting, mark))
        .expect("fields in range");
    tape.into_tape()
}

/// The tape of the printed sheet.
fn yard() -> Vec<u8> {
    closing(90 * DEGREE + 5, 5_000_000, 200_000_000, 0)
}

/// A tape or more for each refusal of one: number, place, bytes.
fn bad_tapes() -> Vec<(u32, usize, Vec<u8>)> {
    let yard = yard();
    let begun = begun().into_tape();
    let changed = |at: usize, byte: u8| {
        let mut tape = yard.clone();
        tape[at] = byte;
        tape
    };
    let mut many = begun.clone();
    many.extend(yard[32..41].repeat(65));
    vec![
        (2, 0, Vec::new()),
        (2, 32, begun),
        (2, 68, yard[..84].to_vec()),
        (3, 0, changed(0, 9)),
        (3, 85, [&yard[..], &[0]].concat()),
        (4, 7, changed(10, 1)),
        (5, 7, [&yard[..7], &yard[..]].concat()),
        (6, 32 + 64 * 9, many),
        (7, 14, changed(16, 0x5c)),
        (8, 68, closing(90 * DEGREE + 501, 5_000_000, 200_000_000, 0)),
        (9, 68, closing(90 * DEGREE + 5, 5_000_000, 200_000_083, 0)),
    ]
}

/// Tapes of every answer: each that is refused, the printed one, and one that is no loop.
fn tapes() -> Vec<Vec<u8>> {
    let line = closing(90 * DEGREE + 5, 5_000_001, 200_000_000, 0);
    let refused = bad_tapes().into_iter().map(|(.., tape)| tape);
    refused.chain([yard(), line]).collect()
}

const PRINTED: &str = "\
CLOSE W=+0.5 N=-0.01 E=+0.02 P=178886
0 50000.00 2000000.00
1 51000.00 2000000.00
2 51000.01 2001000.01
3 50000.00 2001000.00
4 50000.00 2000000.00
AREA2 2000020.0000
";

// ---- docs/RULES.md, "Figures on both sides"

#[test]
fn sines() {
    assert_eq!(sine(0), Ok(0));
    assert_eq!(sine(30 * DEGREE), Ok(500_000_000));
    assert_eq!(sine(90 * DEGREE), Ok(1_000_000_000));
    assert_eq!(sine(MINUTE), Ok(290_888));
    assert_eq!(sine(1), Ok(485));
    assert_eq!(sine(300), Ok(145_444));
    assert_eq!(sine(270 * DEGREE), Ok(-1_000_000_000));
    assert_eq!(cosine(60 * DEGREE), Ok(500_000_000));
    assert_eq!(cosine(180 * DEGREE), Ok(-1_000_000_000));
}

#[test]
fn distances() {
    assert_eq!(sea_level(950), Ok(9_999_546));
    assert_eq!(sea_level(1_952), Ok(9_999_066));
    assert_eq!(sea_level(1_235), Ok(9_999_409));
    assert_eq!(sea_level(-1_000), Ok(10_000_478));
    assert_eq!(combine(9_999_546, 9_999_412), Ok(9_998_958));
    assert_eq!(combine(9_996_653, 10_001_989), Ok(9_998_641));
    assert_eq!(grid(1_000_500, 9_990_000), Ok(999_500)); // 999,499.5
}

#[test]
fn legs() {
    let first = 208 * DEGREE + 33 * MINUTE + 597;
    assert_eq!(latitude(5_387_658, first), Ok(473_178));
    assert_eq!(departure(5_387_658, first), Ok(257_627));
    let second = 268 * DEGREE + 10 * MINUTE + 582;
    assert_eq!(latitude(5_190_741, second), Ok(16_460));
    assert_eq!(departure(5_190_741, second), Ok(518_813));
}

#[test]
fn azimuths() {
    assert_eq!(
        from_mark(350 * DEGREE, 20 * DEGREE),
        Ok(10 * u64::from(DEGREE))
    );
    assert_eq!(
        onward(350 * DEGREE, 20 * DEGREE),
        Ok(190 * u64::from(DEGREE))
    );
    assert_eq!(misclosure(12_959_999, 0), Ok(-1));
    assert_eq!(closes_angles(500, 4), Ok(true));
    assert_eq!(closes_angles(501, 4), Ok(false));
    assert_eq!(
        [1, 2, 3, 4, 5].map(|j| angle_share(-7, j, 4)),
        [-1, -3, -4, -6, -7].map(Ok)
    );
    assert_eq!(balanced(0, 1), Ok(12_959_999));
}

#[test]
fn closures() {
    assert_eq!([1, 2, 3].map(|part| share(2, part, 3)), [1, 1, 2].map(Ok));
    assert_eq!(share(-30, 2_636_200, 5_276_590), Ok(-15));
    assert_eq!(closes(80, 0, 4_000_030), Ok(true));
    assert_eq!(closes(80, 1, 4_000_030), Ok(false));
    assert_eq!(precision(-1, 2, 4_000_030), Ok(178_886));
    assert_eq!(precision(0, 0, 4_000_030), Ok(0));
    assert_eq!(doubled_area(&[[0, 0], [10, 0], [10, 20], [0, 20]]), Ok(400));
}

#[test]
fn steps_refuse_what_is_out_of_range() {
    assert_eq!(sea_level(20_001), refused(4, 0));
    assert_eq!(combine(9_989_999, 10_000_000), refused(4, 0));
    assert_eq!(grid(u64::MAX, 10_000_000), refused(4, 0));
    assert_eq!(sine(12_960_000), refused(4, 0));
    assert_eq!(cosine(u32::MAX), refused(4, 0));
    assert_eq!(from_mark(0, 12_960_000), refused(4, 0));
    assert_eq!(onward(12_960_000, 0), refused(4, 0));
    assert_eq!(misclosure(0, 12_960_000), refused(4, 0));
    assert_eq!(closes_angles(0, 65), refused(4, 0));
    assert_eq!(angle_share(0, 6, 4), refused(4, 0));
    assert_eq!(balanced(0, i64::MIN), refused(4, 0));
    assert_eq!(latitude(20_100_001, 0), refused(4, 0));
    assert_eq!(departure(0, 12_960_000), refused(4, 0));
    assert_eq!(closes(1_200_000_001, 0, 1), refused(4, 0));
    assert_eq!(precision(0, 26_001, 1), refused(4, 0));
    assert_eq!(share(0, 2, 1), refused(4, 0));
    assert_eq!(doubled_area(&[]), refused(4, 0));
    assert_eq!(doubled_area(&[[0, 0]; 65]), refused(4, 0));
}

// ---- docs/RULES.md, "The sheet, and one printed whole"

#[test]
fn printed_sheet() {
    assert_eq!(sheet(&yard()).as_deref(), Ok(PRINTED));
}

#[test]
fn printed_traverse() {
    let yard = traverse(&yard()).expect("it closes");
    assert_eq!((yard.w, yard.north, yard.east), (5, -1, 2));
    assert_eq!(yard.precision, 178_886);
    assert_eq!(yard.doubled_area, Some(20_000_200_000));
    assert_eq!(yard.legs(), 4);
    let stations = [
        [5_000_000, 200_000_000],
        [5_100_000, 200_000_000],
        [5_100_001, 200_100_001],
        [5_000_000, 200_100_000],
        [5_000_000, 200_000_000],
    ];
    assert_eq!(yard.stations(), stations);
}

#[test]
fn no_loop_has_no_area() {
    let line = closing(90 * DEGREE + 5, 5_000_001, 200_000_000, 0);
    assert_eq!(traverse(&line).map(|line| line.doubled_area), Ok(None));
    assert!(!sheet(&line).expect("it closes").contains("AREA2"));
}

#[test]
fn a_lent_sheet_is_written_at_its_front_only() {
    let mut lent = [7; SHEET + 1];
    assert_eq!(sheet_into(&yard(), &mut lent), Ok(PRINTED));
    assert!(lent[PRINTED.len()..].iter().all(|&byte| byte == 7));
}

// ---- docs/RULES.md, "Nine refusals"

#[test]
fn refusals_of_a_tape() {
    let table = Table::new();
    for (number, place, tape) in bad_tapes() {
        let reads = if number < 8 {
            refused(number, place)
        } else {
            Ok(())
        };
        assert_eq!(read(&tape), reads);
        assert_eq!(traverse(&tape), refused(number, place));
        assert_eq!(traverse_in(&table, &tape), refused(number, place));
        assert_eq!(sheet(&tape), refused(number, place));
        let mut lent = [7; SHEET];
        assert_eq!(
            sheet_into_in(&table, &tape, &mut lent),
            refused(number, place)
        );
        assert_eq!(lent, [7; SHEET]);
    }
}

#[test]
fn too_little_lent_memory_is_refused_before_the_tape_is_read() {
    let table = Table::new();
    let mut lent = [7; SHEET - 1];
    for tape in [&yard()[..], &[9]] {
        assert_eq!(sheet_into(tape, &mut lent), refused(1, 0));
        assert_eq!(sheet_into_in(&table, tape, &mut lent), refused(1, 0));
        assert_eq!(sheet_into(tape, &mut []), refused(1, 0));
    }
    assert_eq!(lent, [7; SHEET - 1]);
}

#[test]
fn a_refusal_in_words() {
    let refusal = sheet(&[]).expect_err("an empty tape has no close");
    assert_eq!(
        refusal.to_string(),
        "refusal 2 at 0: the tape ends inside a record, or before the close"
    );
}

// ---- the writer

#[test]
fn records_are_written_as_the_table_of_kinds_says() {
    let mut tape = TapeWriter::new();
    assert!(tape.project(2650, -2).is_ok());
    assert_eq!(tape.tape(), [1, 0x0a, 0x5a, 0xff, 0xfe]);
    assert_eq!(read(&yard()), Ok(()));
}

#[test]
fn a_refused_record_leaves_the_tape_as_it_was() {
    let mut tape = begun();
    let before = tape.clone();
    let at = before.tape().len();
    assert_eq!(
        tape.row(5_401, 10_000_000).err(),
        refused::<()>(4, at).err()
    );
    assert_eq!(tape.project(0, -1_001), refused(4, at));
    assert_eq!(
        tape.start(0, 1_000_000_001, 0).err(),
        refused::<()>(4, at).err()
    );
    assert_eq!(tape.leg(0, 999), refused(4, at));
    assert_eq!(
        tape.close(0, 0, 0, 12_960_000).err(),
        refused::<()>(4, at).err()
    );
    assert_eq!(tape, before);
}

// ---- the lent table

#[test]
fn a_lent_table_answers_as_the_own() {
    let table = Table::default();
    assert_eq!(table.entries().len(), 5_401);
    for angle in (0..12_970_000).step_by(9_973) {
        assert_eq!(sine_in(&table, angle), sine(angle));
        assert_eq!(cosine_in(&table, angle), cosine(angle));
        assert_eq!(
            latitude_in(&table, 5_387_658, angle),
            latitude(5_387_658, angle)
        );
        assert_eq!(
            departure_in(&table, 5_387_658, angle),
            departure(5_387_658, angle)
        );
    }
    assert_eq!(traverse_in(&table, &yard()), traverse(&yard()));
    assert_eq!(sheet_in(&table, &yard()), sheet(&yard()));
}

// ---- many tapes

#[test]
fn a_desk_answers_every_tape_as_the_functions_do() {
    let desk = Desk::new();
    for tape in tapes() {
        assert_eq!(desk.traverse(&tape), traverse(&tape));
        assert_eq!(desk.sheet(&tape), sheet(&tape));
        let mut lent = [[7; SHEET + 1]; 2];
        let [by_desk, by_function] = &mut lent;
        assert_eq!(
            desk.sheet_into(&tape, by_desk),
            sheet_into(&tape, by_function)
        );
        assert_eq!(by_desk, by_function);
        assert_eq!(desk.sheet_into(&tape, &mut [7; SHEET - 1]), refused(1, 0));
    }
}

#[test]
fn a_desk_answers_every_step_as_the_functions_do() {
    let desk = Desk::default();
    for angle in (0..12_970_000).step_by(9_973) {
        assert_eq!(desk.sine(angle), sine(angle));
        assert_eq!(desk.cosine(angle), cosine(angle));
        for distance in [0, 5_387_658, 20_100_000, 20_100_001] {
            assert_eq!(desk.latitude(distance, angle), latitude(distance, angle));
            assert_eq!(desk.departure(distance, angle), departure(distance, angle));
        }
    }
    assert_eq!(desk.table(), &Table::new());
}

#[test]
fn a_desk_can_be_given_to_a_thread() {
    let desk = Desk::new();
    let given = thread::spawn(move || desk.sheet(&yard()));
    assert_eq!(given.join().expect("no panic").as_deref(), Ok(PRINTED));
}

// ---- threads

#[test]
fn two_threads_at_once() {
    let desk = Desk::new();
    let tapes = tapes();
    let alone: Vec<_> = tapes
        .iter()
        .map(|tape| (traverse(tape), sheet(tape)))
        .collect();
    let both = Barrier::new(2);
    thread::scope(|scope| {
        for _ in 0..2 {
            scope.spawn(|| {
                both.wait();
                for _ in 0..100 {
                    for (tape, alone) in tapes.iter().zip(&alone) {
                        assert_eq!(&(traverse(tape), sheet(tape)), alone);
                        assert_eq!(&(desk.traverse(tape), desk.sheet(tape)), alone);
                    }
                }
            });
        }
    });
}
