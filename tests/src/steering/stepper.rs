//! Step-motor modules: loads that ramps of some ticks come of, frames at every point of a motion, and slots that pass the
//! list at its edges.

use super::{any_items, data_byte, flag, miscount, seam};
use crate::calls::{stepper_sample, Sample};
use crate::dice::Dice;
use crate::model::{Device, Motion, Station, StepLoad, Stepper, STEPS_MOST};
use crate::record::{stepper_at as at, ITEMS, MOTION};

const CODES: &[u8] =
    &[0, 1, 2, 2, 3, 3, 4, 4, 4, 4, 4, 5, 5, 5, 5, 6, 6, 6, 7, 7, 7, 7, 8, 9, 10, 11, 12, 13, 14, 14, 15];

/// Control bytes of a load: with speed and T, and what else it may carry; then those that lack one.
const COMPLETE: &[u8] = &[0x06, 0x06, 0x06, 0x07, 0x0E, 0x0F];
const INCOMPLETE: &[u8] = &[0x00, 0x02, 0x02, 0x04, 0x04, 0x01, 0x08, 0x09, 0x0A, 0x0C];

/// A speed: mostly one that is soon reached, and the edges of its range.
fn speed(dice: &mut Dice) -> u8 {
    match dice.below(12) {
        0 => 1,
        1 => STEPS_MOST - dice.below(2) as u8,
        2 => 1 + dice.below(STEPS_MOST.into()) as u8,
        _ => 1 + dice.below(12) as u8,
    }
}

/// A speed near the one that there is, or any.
fn next_speed(dice: &mut Dice, stepper: &Stepper) -> u8 {
    let now = stepper.speed().abs();
    if now == 0 || dice.percent(40) {
        return speed(dice);
    }
    (now + dice.below(9) as i32 - 4).clamp(1, STEPS_MOST.into()) as u8
}

fn bad_speed(dice: &mut Dice) -> u8 {
    dice.pick(&[0, 0, STEPS_MOST + 1, 255])
}

/// T: mostly so few ticks that some changes of the speed come.
fn time(dice: &mut Dice) -> u8 {
    match dice.below(12) {
        0..=4 => 1,
        5 => dice.pick(&[254, 255]),
        6 => 1 + dice.below(255) as u8,
        _ => 2 + dice.below(4) as u8,
    }
}

/// Whether a load goes backward: mostly as the motion does that is under way.
fn backward(dice: &mut Dice, stepper: &Stepper) -> bool {
    match stepper.speed() {
        0 => flag(dice),
        speed => (speed < 0) != dice.percent(25),
    }
}

/// A load's data by its control byte; `spoil` is how often, of a hundred, a value is bad.
fn load(dice: &mut Dice, stepper: &Stepper, control: u8, spoil: usize) -> Vec<u8> {
    let mut data = vec![control];
    if control & 1 != 0 {
        data.extend((dice.throw() as u32).to_le_bytes());
    }
    if control & 2 != 0 {
        data.push(if dice.percent(spoil) { bad_speed(dice) } else { next_speed(dice, stepper) });
    }
    if control & 4 != 0 {
        data.push(if dice.percent(spoil) { 0 } else { time(dice) });
    }
    if control & 8 != 0 {
        data.extend(dice.bytes(3));
    }
    data
}

fn control(dice: &mut Dice, stepper: &Stepper) -> u8 {
    let mut control = if dice.percent(70) { dice.pick(COMPLETE) } else { dice.pick(INCOMPLETE) };
    control |= u8::from(backward(dice, stepper)) << 4 | u8::from(dice.percent(40)) << 7;
    if dice.percent(5) {
        control ^= 1 << dice.below(8);
    }
    control
}

/// Set Parameters' data: four bytes may be anything.
fn parameters(dice: &mut Dice, minimum: u8) -> Vec<u8> {
    vec![dice.byte(), minimum, dice.byte(), dice.byte(), dice.byte()]
}

/// A load to be started now whose value is bad, or a command of another count: one fault hides the other.
fn faulty_command(dice: &mut Dice, stepper: &Stepper) -> (u8, Vec<u8>) {
    let code = dice.pick(&[2, 3, 4, 4, 4, 5, 6, 7]);
    let mut data = match code {
        2 | 3 => vec![dice.byte()],
        4 => {
            let control = dice.pick(&[0x86, 0x96, 0x82, 0x84, 0xA6, 0xC6, 0x92, 0x06]);
            load(dice, stepper, control, 60)
        }
        6 => {
            let minimum = bad_speed(dice);
            parameters(dice, minimum)
        }
        7 => vec![dice.pick(&[0x0C, 0x0D, 0x02, 0x06, 0x10, 0x20, 0x84])],
        _ => Vec::new(),
    };
    if data.is_empty() || dice.percent(60) {
        miscount(dice, &mut data);
    }
    (code, data)
}

/// What sets it going: Set Parameters where there is no minimum yet, a load where none waits, a Start.
fn next_of_start(dice: &mut Dice, stepper: &Stepper) -> (u8, Vec<u8>) {
    if stepper.minimum == 0 && dice.percent(80) {
        let minimum = speed(dice);
        return (6, parameters(dice, minimum));
    }
    if stepper.load.waits {
        return (5, Vec::new());
    }
    let control = dice.pick(COMPLETE) | u8::from(backward(dice, stepper)) << 4 | u8::from(flag(dice)) << 7;
    (4, load(dice, stepper, control, 0))
}

/// What changes a motion that is under way: a smooth stop mostly, and then a start again.
fn next_in_motion(dice: &mut Dice, stepper: &Stepper) -> (u8, Vec<u8>) {
    let stopping = stepper.motion.as_ref().map_or(false, |motion| motion.stopping);
    if dice.percent(if stopping { 25 } else { 50 }) {
        return (7, vec![dice.pick(&[8, 9])]);
    }
    next_of_start(dice, stepper)
}

/// A command of its own, mostly one that it can execute as it stands.
pub fn command(dice: &mut Dice, stepper: &Stepper) -> (u8, Vec<u8>) {
    if dice.percent(8) {
        return faulty_command(dice, stepper);
    }
    if dice.percent(40) {
        let moving = stepper.motion.is_some();
        return if moving { next_in_motion(dice, stepper) } else { next_of_start(dice, stepper) };
    }
    let code = dice.pick(CODES);
    let data = match code {
        2 | 3 => vec![any_items(dice, Stepper::TYPE)],
        4 => {
            let control = control(dice, stepper);
            load(dice, stepper, control, 5)
        }
        6 => {
            let minimum = if dice.percent(85) { speed(dice) } else { bad_speed(dice) };
            parameters(dice, minimum)
        }
        7 if dice.percent(85) => vec![dice.pick(&[0, 1, 1, 4, 5, 8, 8, 9, 9])],
        7 => vec![dice.byte()],
        _ => (0..Stepper::count(code, &[])).map(|_| data_byte(dice)).collect(),
    };
    (code, data)
}

/// A stop input that is 1 now and then.
pub fn sample(dice: &mut Dice) -> Sample {
    stepper_sample(u8::from(dice.percent(6)))
}

pub fn any_sample(dice: &mut Dice) -> Sample {
    stepper_sample(dice.below(2) as u8)
}

// ---------------------------------------------------------------- slots

/// Without a waiting load the list asks nothing of the load's other bytes but their ranges.
fn any_load(dice: &mut Dice) -> StepLoad {
    if dice.percent(40) {
        return StepLoad::default();
    }
    let carried = |dice: &mut Dice, number: u8| if dice.percent(85) { number } else { 0 };
    let (speed, time) = (speed(dice), time(dice));
    StepLoad { waits: dice.percent(85), backward: flag(dice), speed: carried(dice, speed), time: carried(dice, time) }
}

/// A motion of a module that has a minimum; often about to change its speed.
fn any_motion(dice: &mut Dice, minimum: u8) -> Option<Motion> {
    if minimum == 0 || dice.percent(25) {
        return None;
    }
    let least = i32::from(minimum);
    let mut above = || (least + dice.pick(&[0, 0, 1, 2, 5, 249])).min(STEPS_MOST.into());
    let (speed, goal) = (above(), above());
    let (sign, stopping) = (if flag(dice) { -1 } else { 1 }, dice.percent(35));
    let time = time(dice);
    let passed = if dice.percent(60) { time - 1 } else { dice.below(time.into()) as u8 };
    Some(Motion { speed: sign * speed, goal: sign * if stopping { least } else { goal }, time, passed, stopping })
}

/// A module that the list takes, in any motion and often at an edge of it.
pub fn any_stepper(dice: &mut Dice, mut station: Station) -> Stepper {
    station.items &= Stepper::ITEMS;
    let minimum = if dice.percent(15) { 0 } else { speed(dice) };
    let near_seam = seam(dice).wrapping_add(dice.below(12) as u32).wrapping_sub(6);
    Stepper {
        station,
        amplifier: flag(dice),
        minimum,
        stored_position: dice.throw() as u32,
        stored_timer: dice.throw() as u32,
        load: any_load(dice),
        motion: any_motion(dice, minimum),
        position: if flag(dice) { near_seam } else { dice.throw() as u32 },
    }
}

/// A byte of a motion put to an edge, or beside what the list asks of it.
fn damage_motion(dice: &mut Dice, slot: &mut [u8]) {
    let (minimum, time) = (slot[at::MINIMUM], slot[at::TIME]);
    match dice.below(10) {
        0 => slot[at::SPEED] = minimum.wrapping_sub(1),
        1 => slot[at::GOAL] = minimum.wrapping_sub(1),
        2 => slot[at::PASSED] = dice.pick(&[time, time.wrapping_sub(1), time.wrapping_add(1)]),
        3 => slot[at::STOPPING] = 1,
        4 => slot[at::GOAL] = minimum.wrapping_add(1),
        5 => slot[dice.pick(&[at::SPEED, at::GOAL])] = dice.pick(&[STEPS_MOST, STEPS_MOST + 1, 255]),
        6 => slot[at::MINIMUM] = dice.pick(&[0, 1, minimum.wrapping_add(1), STEPS_MOST + 1]),
        7 => slot[dice.pick(&[at::BACKWARD, at::STOPPING])] = dice.below(4) as u8,
        8 => slot[at::TIME] = 0,
        _ => slot[MOTION.start + dice.below(MOTION.len())] = dice.below(4) as u8,
    }
}

/// A field that the list bounds put to an edge of that, or a motion spoiled.
pub fn damage(dice: &mut Dice, slot: &mut [u8]) {
    match dice.below(6) {
        0 => slot[dice.pick(&[3, 4, at::AMPLIFIER, at::LOAD_WAITS, at::LOAD_BACKWARD])] = dice.below(4) as u8,
        1 => slot[dice.pick(&[at::MINIMUM, at::LOAD_SPEED])] = dice.pick(&[STEPS_MOST, STEPS_MOST + 1, 255]),
        2 => slot[ITEMS] = dice.pick(&[0x01, 0x21, 0x22, 0x41, 0x61, 0x31, 0xFF]),
        _ => damage_motion(dice, slot),
    }
}
