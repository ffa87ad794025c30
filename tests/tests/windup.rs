//! Winding up, before version 1.7.0 and after: docs/windup.txt, from which docs/windup.svg is drawn, against the library,
//! the model and the model with the former rule; and that the table shows what the drawing says.

use doljurven_tests::capi::Library;
use doljurven_tests::windup::{rows, table, Row, AFTER, BEFORE, BLOCK, GOAL, GONE, INTEGRAL_LIMIT, OUTPUT_LIMIT};
use std::fs;
use std::path::Path;

/// Stored and played tables are equal, or the first line that is not is told.
fn same(played: &str, player: &str) {
    let path = Path::new(env!("CARGO_MANIFEST_DIR")).join("../docs/windup.txt");
    let stored = fs::read_to_string(&path).unwrap_or_else(|told| panic!("{}: {told}", path.display()));
    for (number, (stored, played)) in stored.lines().zip(played.lines()).enumerate() {
        assert_eq!(stored, played, "docs/windup.txt, line {}, by the {player}", number + 1);
    }
    assert_eq!(stored, played, "docs/windup.txt by the {player}: its length");
}

#[test]
fn table_is_what_library_and_model_do() {
    let before = rows(&BEFORE);
    same(&table(&before, &rows(&Library)), "library");
    same(&table(&before, &rows(&AFTER)), "model");
}

/// The first tick in which the carriage is held and its output cut, up to the one in which the block is gone.
fn held(rows: &[Row]) -> std::ops::Range<usize> {
    let first = rows.iter().position(|row| row.position == BLOCK && row.cut).expect("a cut tick at the block");
    first..GONE
}

fn overshoot(rows: &[Row]) -> i64 {
    rows.iter().map(|row| row.position).max().expect("rows") - GOAL
}

#[test]
fn only_the_integral_differs_until_the_block_is_gone() {
    let (before, after) = (rows(&BEFORE), rows(&Library));
    let held = held(&after);
    assert!(held.len() > 60, "{held:?}");
    assert_eq!(before[..held.start], after[..held.start], "nothing is cut until then");
    assert!(!after[..held.start].iter().any(|row| row.cut));
    for tick in held {
        for row in [before[tick], after[tick]] {
            assert_eq!((row.position, row.output, row.cut), (BLOCK, OUTPUT_LIMIT, true), "tick {tick}");
        }
        let error = before[tick].setpoint - BLOCK;
        let wound_up = (before[tick - 1].integral + error).min(INTEGRAL_LIMIT);
        assert_eq!(before[tick].integral, wound_up, "tick {tick}: it goes on growing");
        assert_eq!(after[tick].integral, after[tick - 1].integral, "tick {tick}: it stays");
    }
    let (wound, kept) = (before[GONE - 1].integral, after[GONE - 1].integral);
    assert!(wound > 10 * kept, "{wound} and {kept}");
}

#[test]
fn carriage_lurches_no_more() {
    let (before, after) = (rows(&BEFORE), rows(&Library));
    let (far, near) = (overshoot(&before), overshoot(&after));
    assert!(far > 200 && near < 20, "{far} counts past the goal before, {near} after");
    let cut_since = |rows: &[Row]| rows[GONE..].iter().filter(|row| row.cut).count();
    assert!(cut_since(&before) > 2 * cut_since(&after), "{} and {}", cut_since(&before), cut_since(&after));
    let pushes_on = |rows: &[Row]| rows.iter().any(|row| row.position > GOAL && row.output == OUTPUT_LIMIT);
    assert!(pushes_on(&before), "past its goal, with all it has");
    assert!(!pushes_on(&after));
    for rows in [before, after] {
        let last = rows.last().expect("rows");
        assert!((last.position - GOAL).abs() <= 2, "at its goal in the end: {last:?}");
    }
}
