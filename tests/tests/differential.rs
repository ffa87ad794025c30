//! Library and model side by side over long random and steered histories.
//!
//! The gate takes the fixed seed and number of sessions below. A longer run, and another, by hand:
//! `DOLJURVEN_SESSIONS=1000000 DOLJURVEN_SEED=7 cargo test --release --manifest-path tests/Cargo.toml --test differential`

use std::env;
use std::io::{self, Write};

use doljurven_tests::branches::{self, Branch, CALLS};
use doljurven_tests::calls::*;
use doljurven_tests::capi::Library;
use doljurven_tests::histories;
use doljurven_tests::model::Mode;
use doljurven_tests::seen::homing::STOPS;
use doljurven_tests::seen::stepper::{Run, Upon, ALL_UPON, RUNS};
use doljurven_tests::seen::{Change, Seen, CHANGES};
use doljurven_tests::slips::Slip;

const SESSIONS: usize = 19_000;
const SEED: u64 = 0x00D0_17C3;

/// A number from the environment, if it is there.
fn asked(name: &str) -> Option<u64> {
    env::var(name).ok().map(|number| number.parse().unwrap_or_else(|_| panic!("{name} is no number: {number}")))
}

#[test]
fn library_and_model_agree() {
    let sessions = asked("DOLJURVEN_SESSIONS").map_or(SESSIONS, |sessions| sessions as usize);
    let seed = asked("DOLJURVEN_SEED").unwrap_or(SEED);
    let seen = histories::run(&Library, Slip::None, seed, sessions).unwrap_or_else(|told| panic!("{told}"));
    println!("{seen:?}");
    branches_are_reached();
    frames_meet_everything(&seen);
    every_mode_change_is_made(&seen);
    servos_come_everywhere(&seen);
    homing_comes_everywhere(&seen);
    steppers_come_everywhere(&seen);
    buffers_come_everywhere(&seen);
    calls_give_every_number(&seen);
}

/// Hundredths of the model's branches that this thread has reached.
fn share_reached() -> usize {
    100 * (CALLS.len() - branches::unreached(CALLS).len()) / CALLS.len()
}

fn branches_are_reached() {
    let unreached = branches::unreached(CALLS);
    let reached = CALLS.len() - unreached.len();
    // past the test's captured output, so that a passing run tells it too
    writeln!(io::stderr(), "branches of the model reached: {reached} of {}; not: {unreached:?}", CALLS.len())
        .expect("a place to write");
    let mut rarest: Vec<(usize, &str)> =
        CALLS.iter().map(|(branch, words)| (branches::times(*branch), *words)).collect();
    rarest.sort();
    println!("rarest branches: {:?}", &rarest[..10]);
    assert!(share_reached() >= 95);
    // each cause, and each that hides a later one
    often_reached(Branch::Executed, Branch::RangeBeforeNotNowStepLoad);
    // each start condition decides alone, by Start and by start now
    often_reached(Branch::StartNothingWaits, Branch::NowHalfTurnFromOff);
    // all that a stepper does, each of its start conditions among it
    often_reached(Branch::StepperUnknown, Branch::StepsBackward);
    // the amplifier bit through a dip
    often_reached(Branch::StopSetsAmplifierAtLow, Branch::EnableBackFromHigh);
    // ticks that are cut, and those that nearly are
    often_reached(Branch::CutAbove, Branch::UncutAfterCut);
    // Set Homing, what it outlasts, how home is found, and its stop in every mode
    often_reached(Branch::Limit1Set, Branch::HomingNotShown);
    often_reached(Branch::SetHomingEmpty, Branch::HomeStopKeepsCause);
    // each refusal of a buffer, each that hides a later one, and how frames stand in a buffer that is taken
    often_reached(Branch::BufferRecord, Branch::BufferCarriedOut);
    // each refusal of a tick's list, each that hides a later one, and what a good list may hold
    often_reached(Branch::TickDone, Branch::SamplesOfSteppersDiffer);
}

/// Branches that stand together in the table, from one to another.
fn often_reached(first: Branch, last: Branch) {
    let together = first as usize..=last as usize;
    for (branch, words) in CALLS.iter().filter(|(branch, _)| together.contains(&(*branch as usize))) {
        assert!(branches::times(*branch) > 100, "{words}: {}", branches::times(*branch));
    }
}

#[test]
fn without_steering_branches_stay_unreached() {
    histories::run_unsteered(&Library, SEED, 500).unwrap_or_else(|told| panic!("{told}"));
    assert!(share_reached() < 95);
}

fn frames_meet_everything(seen: &Seen) {
    assert!(seen.chains.iter().all(|frames| *frames > 100), "{:?}", seen.chains);
    assert!(seen.places.iter().all(|touched| *touched > 100), "{:?}", seen.places);
    // codes that a type does not know, those that may be not now, and those with values out of range
    let types: [(&str, &[usize], &[usize], &[usize]); 3] = [
        ("servo", &[8, 12, 13], &[0, 4, 5, 7], &[4, 6, 7, 9]),
        ("I/O", &[9, 11, 13], &[], &[]),
        ("stepper", &[0, 8, 9, 11, 12, 13], &[4, 5], &[2, 3, 4, 6, 7]),
    ];
    for ((name, unknown, not_now, out_of_range), met) in types.iter().zip(&seen.met) {
        for (code, causes) in met.iter().enumerate() {
            let known = !unknown.contains(&code);
            // 10 is Set Baud, unknown where it is sent individually
            let may = [known, true, known, not_now.contains(&code), !known || code == 10, out_of_range.contains(&code)];
            for (cause, (times, may)) in causes.iter().zip(may).enumerate() {
                let told = format!("{name}, code {code}, cause {cause}: {times}");
                assert!(if may { *times > 100 } else { *times == 0 }, "{told}");
            }
        }
    }
    for (name, times) in seen.two_causes.iter().chain(&seen.three_causes) {
        assert!(*times > 100, "{name}: {times}");
    }
    assert!(seen.repliers.iter().all(|frames| *frames > 1000), "{:?}", seen.repliers);
    assert!(seen.full_rooms > 10, "{} full rooms", seen.full_rooms);
}

/// Modes that a servo may have after what came upon it.
fn modes_after(change: Change, before: Mode) -> Vec<Mode> {
    match (change, before) {
        (Change::Start | Change::StartNow, _) => vec![Mode::Pwm, Mode::Velocity, Mode::Trapezoid],
        (Change::Abrupt | Change::StopHere, _) => vec![Mode::Holding],
        (Change::StopOff | Change::HardReset | Change::PowerLow, _) => vec![Mode::Off],
        (Change::Smooth, Mode::Off | Mode::Pwm) => vec![Mode::Off],
        (Change::Smooth, _) => vec![Mode::Velocity],
        (Change::Trip, Mode::Off | Mode::Pwm) => vec![],
        (Change::Trip, _) => vec![Mode::Off],
        (Change::HomeOff, _) => vec![Mode::Off],
        (Change::HomeAbrupt, _) => vec![Mode::Holding],
        (Change::HomeSmooth, Mode::Off | Mode::Pwm) => vec![Mode::Off],
        (Change::HomeSmooth, _) => vec![Mode::Velocity],
        (Change::Nothing, mode) => vec![mode],
    }
}

const MODES: [Mode; 5] = [Mode::Off, Mode::Pwm, Mode::Holding, Mode::Velocity, Mode::Trapezoid];

fn every_mode_change_is_made(seen: &Seen) {
    for change in CHANGES {
        for before in MODES {
            for after in MODES {
                let times = seen.modes[change as usize][before as usize][after as usize];
                let told = format!("{change:?} from {before:?} to {after:?}: {times}");
                let may = modes_after(change, before).contains(&after);
                assert!(if may { times > 50 } else { times == 0 }, "{told}");
            }
        }
    }
    for mode in [Mode::Pwm, Mode::Velocity, Mode::Trapezoid] {
        let starts: usize = seen.modes[Change::Start as usize].iter().map(|after| after[mode as usize]).sum();
        assert!(starts > 1000, "{starts} starts of {mode:?}");
    }
}

fn servos_come_everywhere(seen: &Seen) {
    let while_cut = seen.frames_while_cut.iter().chain(&seen.ticks_while_cut);
    for (name, times) in seen.running.iter().chain(&seen.wraps).chain(while_cut) {
        assert!(*times > 100, "{name}: {times}");
    }
    for often in ["output at its limit", "trapezoid's speed neither highest nor lowest"] {
        assert!(seen.running.iter().any(|(name, times)| *name == often && *times > 1000), "{often}");
    }
}

/// Every good byte is set in every mode, and home found with every stop in every mode and at every power.
fn homing_comes_everywhere(seen: &Seen) {
    for (stop, (set, found)) in STOPS.iter().zip(seen.homings.set.iter().zip(&seen.homings.found)) {
        for mode in MODES {
            for (watched, set) in set.iter().enumerate().skip(1) {
                let times = set[mode as usize];
                assert!(times > 50, "{stop:?}, inputs {watched} watched, set in {mode:?}: {times}");
            }
            for (power, times) in found[mode as usize].iter().enumerate() {
                assert!(*times > 20, "{stop:?}, found in {mode:?} at power {power}: {times}");
            }
        }
    }
    for (name, times) in seen.homings.frames.iter().chain(&seen.homings.ticks) {
        assert!(*times > 100, "{name}: {times}");
    }
}

/// What a stepper's motor may do after what came upon it.
fn runs_after(upon: Upon, before: Run) -> Vec<Run> {
    use Run::{Backward, Forward, Rest, StoppingBackward, StoppingForward};
    match (upon, before) {
        (Upon::Start | Upon::StartNow, Rest) => vec![Forward, Backward],
        (Upon::Start | Upon::StartNow, Forward | StoppingForward) => vec![Forward],
        (Upon::Start | Upon::StartNow, Backward | StoppingBackward) => vec![Backward],
        (Upon::Abrupt | Upon::HardReset | Upon::Input, _) => vec![Rest],
        (Upon::Smooth, Forward) => vec![StoppingForward],
        (Upon::Smooth, Backward) => vec![StoppingBackward],
        (Upon::Tick, StoppingForward | StoppingBackward) => vec![before, Rest],
        _ => vec![before],
    }
}

fn steppers_come_everywhere(seen: &Seen) {
    for upon in ALL_UPON {
        for before in RUNS {
            for after in RUNS {
                let times = seen.steppers.runs[upon as usize][before as usize][after as usize];
                let may = runs_after(upon, before).contains(&after);
                assert!(if may { times > 50 } else { times == 0 }, "{upon:?} from {before:?} to {after:?}: {times}");
            }
        }
    }
    for (name, times) in seen.steppers.frames.iter().chain(&seen.steppers.ticks) {
        assert!(*times > 100, "{name}: {times}");
    }
}

/// Buffers of every length come up, with every number of frames that can end in one, and frames cut in every way.
fn buffers_come_everywhere(seen: &Seen) {
    let buffers = &seen.buffers;
    for len in 0..=BUFFER_LEN {
        let times = buffers.lengths.get(&len).copied().unwrap_or(0);
        assert!(times > 100, "buffers of {len} bytes: {times}");
    }
    for (frames, times) in buffers.ended.iter().enumerate() {
        assert!(*times > 100, "buffers in which {frames} frames ended: {times}");
    }
    assert!(buffers.full_rooms > 100, "{} full rooms of a buffer", buffers.full_rooms);
    for (name, times) in buffers.held.iter().chain(&buffers.went_on) {
        assert!(*times > 100, "{name}: {times}");
    }
    assert!(buffers.ended_by_byte > 1000, "begun by a buffer, ended by a byte call: {}", buffers.ended_by_byte);
}

fn calls_give_every_number(seen: &Seen) {
    for number in [DONE, UNDAMAGED, DAMAGED, BAD_CHAIN, BAD_TYPE, BAD_PLACE, BAD_FIELD, SHORT_ROOM, BAD_RECORD] {
        assert!(seen.numbers[number as usize] > 100, "number {number}");
    }
    for number in [BAD_FRAME, BAD_LENGTH, BAD_SUM, BAD_LIST] {
        assert!(seen.numbers[number as usize] > 100, "number {number}");
    }
    assert!(seen.damaged_records_taken > 1000 && seen.damaged_records - seen.damaged_records_taken > 1000);
    for (name, times) in &seen.damaged_records_and_lists {
        assert!(*times > 100, "{name}: {times}");
    }
}
