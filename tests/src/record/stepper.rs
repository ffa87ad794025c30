//! The slot of a step-motor module.

use super::{cause_holds, four, put, put_station, station, ITEMS};
use crate::branches::{all_hold, Branch};
use crate::model::{Device, Motion, StepLoad, Stepper, STEPS_MOST};
use crate::slips::Slip;

/// Bytes of its slot that it uses.
pub const STEPPER_LEN: usize = 32;

/// Where in a slot its fields begin.
pub mod stepper_at {
    pub const AMPLIFIER: usize = 8;
    pub const MINIMUM: usize = 9;
    pub const STORED_POSITION: usize = 10;
    pub const STORED_TIMER: usize = 14;
    pub const LOAD_WAITS: usize = 18;
    pub const LOAD_BACKWARD: usize = 19;
    pub const LOAD_SPEED: usize = 20;
    pub const LOAD_TIME: usize = 21;
    pub const SPEED: usize = 22;
    pub const BACKWARD: usize = 23;
    pub const GOAL: usize = 24;
    pub const TIME: usize = 25;
    pub const PASSED: usize = 26;
    pub const STOPPING: usize = 27;
    pub const POSITION: usize = 28;
}
use stepper_at as at;

/// The bytes that are all 0 at rest.
pub const MOTION: std::ops::Range<usize> = at::SPEED..at::POSITION;

/// Ranges and flags: what can be told field by field.
fn in_range(slot: &[u8], slip: Slip) -> bool {
    let items = slot[ITEMS] & !Stepper::ITEMS == 0 || slip == Slip::RecordStepItemsUntested;
    let minimum = slot[at::MINIMUM] <= STEPS_MOST || slip == Slip::RecordStepMinimumUntested;
    let unused = slot[at::LOAD_WAITS] == 1 || slot[at::LOAD_BACKWARD..at::SPEED] == [0; 3];
    all_hold(&[
        (slot[3] <= 1, Branch::ListStepLeader),
        (slot[4] <= 1, Branch::ListStepLow),
        (cause_holds(slot, slip), Branch::ListStepCause),
        (items, Branch::ListStepItems),
        (slot[at::AMPLIFIER] <= 1, Branch::ListStepAmplifier),
        (minimum, Branch::ListStepMinimum),
        (slot[at::LOAD_WAITS] <= 1, Branch::ListStepWaits),
        (slot[at::LOAD_BACKWARD] <= 1, Branch::ListStepReverse),
        (slot[at::LOAD_SPEED] <= STEPS_MOST, Branch::ListStepLoadSpeed),
    ]) && (unused || slip != Slip::RecordStepLoadTested)
}

/// What a motion asks of the other fields; at rest there is nothing of one.
fn in_order(slot: &[u8], slip: Slip) -> bool {
    let [minimum, speed, goal] = [at::MINIMUM, at::SPEED, at::GOAL].map(|at| slot[at]);
    if speed == 0 {
        let clear = slot[MOTION].iter().all(|byte| *byte == 0) || slip == Slip::RecordStepRestUntested;
        return all_hold(&[(clear, Branch::ListStepRest)]);
    }
    // without a minimum nothing lies below it, and without T no tick has passed too many
    let slow = speed < minimum && slip != Slip::RecordStepSlowUntested;
    let goal_low = goal < minimum && slip != Slip::RecordStepGoalUntested;
    let passed = slot[at::PASSED] < slot[at::TIME] || slot[at::TIME] == 0 || slip == Slip::RecordStepPassedUntested;
    let astray = slot[at::STOPPING] == 1 && goal > minimum && slip != Slip::RecordStepStoppingUntested;
    all_hold(&[
        (minimum != 0, Branch::ListStepUnknown),
        (!slow, Branch::ListStepSlow),
        (speed <= STEPS_MOST, Branch::ListStepFast),
        (!goal_low, Branch::ListStepGoalLow),
        (goal <= STEPS_MOST, Branch::ListStepGoalHigh),
        (slot[at::TIME] != 0, Branch::ListStepTime),
        (passed, Branch::ListStepPassed),
        (slot[at::BACKWARD] <= 1, Branch::ListStepBackward),
        (slot[at::STOPPING] <= 1, Branch::ListStepStopping),
        (!astray, Branch::ListStepStoppingGoal),
    ])
}

fn motion(slot: &[u8]) -> Option<Motion> {
    let sign = if slot[at::BACKWARD] == 1 { -1 } else { 1 };
    (slot[at::SPEED] != 0).then(|| Motion {
        speed: sign * i32::from(slot[at::SPEED]),
        goal: sign * i32::from(slot[at::GOAL]),
        time: slot[at::TIME],
        passed: slot[at::PASSED],
        stopping: slot[at::STOPPING] == 1,
    })
}

pub fn stepper(slot: &[u8], slip: Slip) -> Option<Box<Stepper>> {
    if !in_range(slot, slip) || !in_order(slot, slip) {
        return None;
    }
    Some(Box::new(Stepper {
        station: station(slot),
        amplifier: slot[at::AMPLIFIER] == 1,
        minimum: slot[at::MINIMUM],
        stored_position: four(slot, at::STORED_POSITION),
        stored_timer: four(slot, at::STORED_TIMER),
        load: StepLoad {
            waits: slot[at::LOAD_WAITS] == 1,
            backward: slot[at::LOAD_BACKWARD] == 1,
            speed: slot[at::LOAD_SPEED],
            time: slot[at::LOAD_TIME],
        },
        motion: motion(slot),
        position: four(slot, at::POSITION),
    }))
}

pub fn put_stepper(bytes: &mut [u8], stepper: &Stepper) {
    put_station(bytes, &stepper.station);
    bytes[at::AMPLIFIER] = u8::from(stepper.amplifier);
    bytes[at::MINIMUM] = stepper.minimum;
    put(bytes, at::STORED_POSITION, &stepper.stored_position.to_le_bytes());
    put(bytes, at::STORED_TIMER, &stepper.stored_timer.to_le_bytes());
    let load = &stepper.load;
    put(bytes, at::LOAD_WAITS, &[u8::from(load.waits), u8::from(load.backward), load.speed, load.time]);
    bytes[MOTION].fill(0);
    if let Some(motion) = &stepper.motion {
        let size = |speed: i32| u8::try_from(speed.unsigned_abs()).expect("at most 255");
        let (backward, stopping) = (u8::from(motion.speed < 0), u8::from(motion.stopping));
        let goal = size(motion.goal);
        put(bytes, at::SPEED, &[size(motion.speed), backward, goal, motion.time, motion.passed, stopping]);
    }
    put(bytes, at::POSITION, &stepper.position.to_le_bytes());
}
