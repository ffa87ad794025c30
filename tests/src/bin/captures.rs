//! Writes every capture's `.nmc` and `.out` anew from its `.txt`. Where the model would print or drive something else
//! than the text says, it tells both and fails: one of the two is wrong, and the paper decides which.

use doljurven_tests::{captures, model, record::Model, slips::Slip};
use std::{fs, process::ExitCode};

fn main() -> ExitCode {
    let mut code = ExitCode::SUCCESS;
    for path in captures::with_extension("txt") {
        let text = fs::read_to_string(&path).expect("a readable text");
        let capture = match captures::parse(&text) {
            Ok(capture) => capture,
            Err(told) => {
                println!("{}: {told}", path.display());
                code = ExitCode::FAILURE;
                continue;
            }
        };
        fs::write(path.with_extension("nmc"), &capture.bytes).expect("a writable folder");
        fs::write(path.with_extension("out"), &capture.printed).expect("a writable folder");
        let by_model = model::replay(&capture.bytes);
        if by_model != capture.printed {
            println!("{}: the text says\n{}the model says\n{by_model}", path.display(), capture.printed);
            code = ExitCode::FAILURE;
        }
        for told in capture.driven_otherwise(&Model { slip: Slip::None }) {
            println!("{}, by the model: {told}", path.display());
            code = ExitCode::FAILURE;
        }
    }
    code
}
