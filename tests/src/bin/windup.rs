//! Prints docs/windup.txt anew, by the model: the carriage and its block before version 1.7.0 and after.

use doljurven_tests::windup::{rows, table, AFTER, BEFORE};

fn main() {
    print!("{}", table(&rows(&BEFORE), &rows(&AFTER)));
}
