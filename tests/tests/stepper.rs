//! What a step-motor module does, tick by tick, through the C calls. The numbers are worked out by hand from document 02's
//! P3, and ramps from their closed form.

use doljurven_tests::calls::*;
use doljurven_tests::capi::Library;
use doljurven_tests::model::{frame_bytes, DAMAGED as CAUSE_DAMAGED, NOT_NOW, OUT_OF_RANGE, UNKNOWN, WRONG_COUNT};
use doljurven_tests::record::{slot, stepper_at as at, CAUSE, SLOT_LEN};

const MOVING: u8 = 1;
const FAULT: u8 = 2;

/// Control bytes of a load with speed and T, that waits or starts now, forward or backward.
const WAITS: u8 = 0x06;
const NOW: u8 = 0x86;
const BACKWARD: u8 = 0x10;

const AMPLIFIER: u8 = 1;
const ABRUPT: u8 = 4;
const SMOOTH: u8 = 8;

/// A step-motor module alone, at address 0.
#[derive(Clone)]
struct Stepper {
    net: Vec<u8>,
}

impl Stepper {
    fn at_power_up() -> Stepper {
        let mut net = vec![0x99; NET_LEN];
        assert_eq!(Library.setup(&mut net, &[3]), DONE);
        Stepper { net }
    }

    fn with_minimum(minimum: u8) -> Stepper {
        let mut stepper = Stepper::at_power_up();
        stepper.parameters(minimum);
        stepper
    }

    /// Started from rest by one load.
    fn started(minimum: u8, control: u8, speed: u8, time: u8) -> Stepper {
        let mut stepper = Stepper::with_minimum(minimum);
        stepper.does(4, &[control, speed, time]);
        stepper
    }

    /// Sends a frame; gives the whole reply.
    fn reply(&mut self, code: u8, data: &[u8]) -> Vec<u8> {
        let (mut room, mut written) = ([0; ROOM_LEN], 0);
        for byte in frame_bytes(0, code, data) {
            assert!(Library.byte(&mut self.net, 0, byte, &mut room, &mut written) <= UNDAMAGED);
        }
        room[..written].to_vec()
    }

    fn does(&mut self, code: u8, data: &[u8]) {
        let status = self.reply(code, data)[0];
        assert_eq!(status, u8::from(self.speed() != 0), "code {code}, data {data:X?}");
        assert_eq!(self.byte(CAUSE), 0);
    }

    /// The frame leaves its cause and nothing else.
    fn refuses(&mut self, cause: u8, code: u8, data: &[u8]) {
        let before = self.net.clone();
        let status = self.reply(code, data)[0];
        assert_eq!(status, FAULT | u8::from(self.speed() != 0), "code {code}, data {data:X?}");
        assert_eq!(self.byte(CAUSE), cause, "code {code}, data {data:X?}");
        self.net[slot(0) + CAUSE] = before[slot(0) + CAUSE];
        assert_eq!(self.net, before, "code {code}, data {data:X?}");
    }

    fn parameters(&mut self, minimum: u8) {
        self.does(6, &[0, minimum, 0, 0, 0]);
    }

    fn starts(&mut self) {
        self.does(5, &[]);
    }

    fn stops(&mut self, control: u8) {
        self.does(7, &[control]);
    }

    fn ticks_at(&mut self, stop: u8) {
        assert_eq!(Library.tick(&mut self.net, &stepper_sample(stop)), DONE);
    }

    fn byte(&self, at: usize) -> u8 {
        self.net[slot(0) + at]
    }

    fn four(&self, at: usize) -> u32 {
        u32::from_le_bytes(self.net[slot(0) + at..][..4].try_into().unwrap())
    }

    fn put(&mut self, at: usize, bytes: &[u8]) {
        self.net[slot(0) + at..][..bytes.len()].copy_from_slice(bytes);
    }

    /// What the board drives: the speed with its sign, and the amplifier.
    fn drives(&self) -> (i32, bool) {
        let mut outputs = [0xEE; 8];
        assert_eq!(Library.outputs(&self.net, 0, &mut outputs), DONE);
        let [size, backward, amplifier, rest @ ..] = outputs;
        assert!(backward <= 1 && amplifier <= 1 && rest == [0; 5], "{outputs:X?}");
        assert!(size > 0 || backward == 0, "no direction at rest");
        (if backward == 1 { -i32::from(size) } else { i32::from(size) }, amplifier == 1)
    }

    fn speed(&self) -> i32 {
        self.drives().0
    }

    /// As a reply shows it.
    fn position(&mut self) -> i32 {
        let reply = self.reply(3, &[0x01]);
        i32::from_le_bytes(reply[1..5].try_into().unwrap())
    }

    /// The speeds of so many ticks. The position has moved by their sum, and status bit 0 tells whether it moves.
    fn speeds(&mut self, ticks: usize) -> Vec<i32> {
        let mut speeds = Vec::new();
        for _ in 0..ticks {
            let before = self.position();
            self.ticks_at(0);
            let speed = self.speed();
            assert_eq!(self.position(), before.wrapping_add(speed));
            assert_eq!(self.reply(14, &[])[0], if speed == 0 { 0 } else { MOVING });
            speeds.push(speed);
        }
        speeds
    }
}

// ---------------------------------------------------------------- power-up and replies

#[test]
fn power_up_is_at_rest() {
    let mut stepper = Stepper::at_power_up();
    let mut expected = [0; SLOT_LEN];
    (expected[0], expected[2]) = (3, 0xFF);
    assert_eq!(stepper.net[slot(0)..slot(1)], expected);
    assert_eq!(stepper.drives(), (0, false));
    assert_eq!(stepper.speeds(3), [0; 3]);
    assert_eq!(stepper.net[slot(0)..slot(1)], expected);
}

#[test]
fn replies_have_position_and_type_and_no_other_items() {
    let mut stepper = Stepper::started(3, NOW | BACKWARD, 3, 1);
    stepper.ticks_at(0);
    assert_eq!(stepper.reply(3, &[0x21]), [0x01, 0xFD, 0xFF, 0xFF, 0xFF, 0x03, 0x01, 0xFF]);
    assert_eq!(stepper.reply(3, &[0x20]), [0x01, 0x03, 0x01, 0x05]);
    stepper.does(2, &[0x21]);
    assert_eq!(stepper.reply(14, &[]), [0x01, 0xFD, 0xFF, 0xFF, 0xFF, 0x03, 0x01, 0xFF]);
    for items in (0..=255).filter(|items| items & !0x21 != 0) {
        stepper.refuses(OUT_OF_RANGE, 2, &[items]);
        stepper.refuses(OUT_OF_RANGE, 3, &[items]);
        assert_eq!(stepper.reply(3, &[items]).len(), 8, "the defined items");
    }
    stepper.does(2, &[0x00]);
    assert_eq!(stepper.reply(3, &[0x23]), [0x03, 0x03]);
}

#[test]
fn codes_of_the_manual_that_are_not_here() {
    let mut stepper = Stepper::started(3, NOW, 9, 1);
    stepper.ticks_at(0);
    for (code, data) in [(0, &[][..]), (8, &[0]), (9, &[1]), (11, &[]), (12, &[]), (13, &[])] {
        stepper.refuses(UNKNOWN, code, data);
        stepper.refuses(UNKNOWN, code, &[1, 2]);
    }
    stepper.refuses(UNKNOWN, 10, &[63]);
    assert_eq!(stepper.position(), 4);
}

// ---------------------------------------------------------------- ramps

#[test]
fn ramp_of_the_readings() {
    // T 3, minimum 5, goal 8: the minimum for two ticks, each third one more
    let mut stepper = Stepper::started(5, NOW, 8, 3);
    assert_eq!((stepper.speed(), stepper.position()), (5, 0), "at once, and nothing has moved yet");
    assert_eq!(stepper.speeds(14), [5, 5, 6, 6, 6, 7, 7, 7, 8, 8, 8, 8, 8, 8]);
    let mut stepper = Stepper::started(5, NOW | BACKWARD, 8, 3);
    assert_eq!(stepper.speeds(10), [-5, -5, -6, -6, -6, -7, -7, -7, -8, -8]);
}

#[test]
fn first_tick_is_above_the_minimum_with_t_1() {
    // a position that is loaded stops nothing: 6, 12, 18, 24 goes straight past 10
    let mut stepper = Stepper::with_minimum(5);
    stepper.does(4, &[0x87, 10, 0, 0, 0, 6, 1]);
    assert_eq!(stepper.speeds(4), [6; 4]);
    assert_eq!(stepper.position(), 24);
}

/// The speed so many ticks after a start from rest: one unit for each T ticks, as far as the goal.
fn climbed(minimum: u8, goal: u8, time: u8, ticks: usize) -> i32 {
    (i32::from(minimum) + (ticks / usize::from(time)) as i32).min(i32::from(goal))
}

#[test]
fn every_ramp_has_its_closed_form() {
    for (minimum, goal) in [(1, 1), (1, 2), (1, 6), (3, 4), (7, 12), (249, 250), (250, 250)] {
        for time in [1, 2, 3, 7, 254, 255] {
            for (control, sign) in [(NOW, 1), (NOW | BACKWARD, -1)] {
                let told = format!("from {minimum} to {goal}, T {time}, sign {sign}");
                let mut stepper = Stepper::started(minimum, control, goal, time);
                let there = usize::from(goal - minimum) * usize::from(time);
                let expected: Vec<i32> = (1..there + 4).map(|n| sign * climbed(minimum, goal, time, n)).collect();
                assert_eq!(stepper.speeds(there + 3), expected, "{told}");
                assert_eq!(expected[there.max(1) - 1], sign * i32::from(goal), "{told}: there after {there} ticks");
                stepper.stops(SMOOTH);
                let mut down: Vec<i32> = Vec::new();
                for speed in (minimum..goal).rev() {
                    down.extend(vec![sign * (i32::from(speed) + 1); usize::from(time) - 1]);
                    down.push(sign * i32::from(speed));
                }
                down.extend(vec![sign * i32::from(minimum); usize::from(time) - 1]);
                down.extend([0, 0, 0]);
                assert_eq!(stepper.speeds(there + usize::from(time) + 2), down, "{told}, down again");
            }
        }
    }
}

/// One before each tick: polls, loads that wait, Set Parameters, Stops with neither bit, and frames that are not executed.
const LEAVE_A_RAMP: [(u8, &[u8]); 15] = [
    (3, &[0x21]),
    (2, &[0x20]),
    (14, &[]),
    (6, &[0, 200, 0, 0, 0]),
    (7, &[1]),
    (7, &[0]),
    (4, &[WAITS, 200, 9]),
    (4, &[WAITS | BACKWARD, 200, 9]),
    (5, &[]),
    (4, &[NOW | BACKWARD, 9, 1]),
    (4, &[NOW, 251, 1]),
    (7, &[0x0C]),
    (5, &[1]),
    (15, &[0]),
    (0, &[]),
];

#[test]
fn ramp_goes_on_through_frames_that_do_not_disturb_it() {
    let (minimum, goal, time) = (5, 12, 3);
    let mut stepper = Stepper::started(minimum, NOW, goal, time);
    for n in 1..=60 {
        let (code, data) = LEAVE_A_RAMP[n % LEAVE_A_RAMP.len()];
        stepper.reply(code, data);
        assert_ne!(Library.tick(&mut stepper.net, &stepper_sample(2)), DONE, "a refused tick is none");
        assert_eq!(stepper.speeds(1), [climbed(minimum, goal, time, n)], "code {code}, data {data:X?}");
    }
    stepper.stops(SMOOTH);
    let rest_after = usize::from(goal - minimum + 1) * usize::from(time);
    for n in 1..=rest_after {
        let (code, data) = LEAVE_A_RAMP[n % LEAVE_A_RAMP.len()];
        stepper.reply(code, data);
        let speed = if n < rest_after { i32::from(goal) - (n / usize::from(time)) as i32 } else { 0 };
        assert_eq!(stepper.speeds(1), [speed], "code {code}, data {data:X?}, {n} ticks after the stop");
    }
}

#[test]
fn goal_below_the_minimum_is_the_minimum() {
    for speed in [1, 8, 9] {
        let mut stepper = Stepper::started(9, NOW, speed, 1);
        assert_eq!(stepper.speeds(3), [9; 3], "speed {speed}");
        assert_eq!(stepper.byte(at::GOAL), 9);
    }
    let mut stepper = Stepper::started(9, NOW, 10, 1);
    assert_eq!(stepper.speeds(3), [10; 3]);
    stepper.does(4, &[NOW, 1, 1]);
    assert_eq!(stepper.speeds(3), [9; 3], "down to the minimum, not below");
}

#[test]
fn position_goes_round_at_both_ends() {
    for (position, control, after) in [
        (i32::MAX - 3, NOW, [i32::MAX, i32::MIN + 2, i32::MIN + 5]),
        (i32::MIN + 3, NOW | BACKWARD, [i32::MIN, i32::MAX - 2, i32::MAX - 5]),
        (-4, NOW, [-1, 2, 5]),
        (4, NOW | BACKWARD, [1, -2, -5]),
    ] {
        let mut stepper = Stepper::started(3, control, 3, 1);
        stepper.put(at::POSITION, &position.to_le_bytes());
        let positions = after.map(|_| {
            stepper.ticks_at(0);
            stepper.position()
        });
        assert_eq!(positions, after);
    }
}

// ---------------------------------------------------------------- loads and starts

/// Bytes behind the control byte of a load that carries this: position, speed, T, timer count by bits 0 to 3.
fn carried_bytes(carried: u8) -> usize {
    let sizes = [4, 1, 1, 3];
    (0..4).filter(|bit| carried >> bit & 1 == 1).map(|bit| sizes[bit]).sum()
}

/// A load with so many bytes of 1 behind its control byte.
fn load(control: u8, rest: usize) -> Vec<u8> {
    [vec![control], vec![1; rest]].concat()
}

#[test]
fn start_needs_parameters_a_load_speed_and_t() {
    let mut stepper = Stepper::at_power_up();
    stepper.refuses(NOT_NOW, 5, &[]);
    stepper.does(4, &[WAITS, 6, 1]);
    stepper.refuses(NOT_NOW, 5, &[]);
    stepper.refuses(NOT_NOW, 4, &[NOW, 6, 1]);
    stepper.parameters(4);
    stepper.starts();
    stepper.refuses(NOT_NOW, 5, &[]);
    assert_eq!(stepper.speeds(3), [5, 6, 6]);
    stepper.stops(ABRUPT);

    // every control byte that lacks speed or T
    for carried in (0..16).filter(|carried| carried & 6 != 6) {
        for way in [0, BACKWARD] {
            let mut data = load(carried | way, carried_bytes(carried));
            stepper.does(4, &data);
            stepper.refuses(NOT_NOW, 5, &[]);
            data[0] |= 0x80;
            stepper.refuses(NOT_NOW, 4, &data);
        }
    }
    assert_eq!(stepper.speeds(2), [0, 0]);
}

#[test]
fn older_numbers_do_not_count() {
    let mut stepper = Stepper::started(4, NOW, 9, 2);
    stepper.stops(ABRUPT);
    stepper.does(4, &[0x02, 7]);
    stepper.refuses(NOT_NOW, 5, &[]);
    stepper.does(4, &[0x04, 2]);
    stepper.refuses(NOT_NOW, 5, &[]);
    // a plain load over a complete one replaces it whole
    stepper.does(4, &[WAITS, 7, 2]);
    stepper.does(4, &[BACKWARD]);
    stepper.refuses(NOT_NOW, 5, &[]);
    stepper.does(4, &[WAITS, 7, 2]);
    stepper.starts();
    assert_eq!(stepper.speeds(2), [4, 5], "forward");
}

#[test]
fn load_that_waits_changes_nothing_that_runs() {
    let mut stepper = Stepper::started(4, NOW, 8, 2);
    stepper.does(4, &[WAITS, 200, 1]);
    assert_eq!(stepper.speeds(10), [4, 5, 5, 6, 6, 7, 7, 8, 8, 8]);
    stepper.starts();
    assert_eq!(stepper.speeds(3), [9, 10, 11]);
}

#[test]
fn start_while_moving_goes_on_from_the_speed_and_counts_anew() {
    let mut stepper = Stepper::started(4, NOW, 6, 3);
    assert_eq!(stepper.speeds(5), [4, 4, 5, 5, 5]);
    // two of three ticks have passed: the next would have made it 6
    stepper.does(4, &[NOW, 7, 3]);
    assert_eq!(stepper.speed(), 5);
    assert_eq!(stepper.speeds(7), [5, 5, 6, 6, 6, 7, 7]);
    stepper.does(4, &[NOW, 7, 3]);
    stepper.does(4, &[NOW, 5, 1]);
    assert_eq!(stepper.speeds(3), [6, 5, 5], "down, with the T of the load that was started");
    // the same numbers again and again: the counter never comes to T
    stepper.does(4, &[NOW, 9, 2]);
    for _ in 0..5 {
        assert_eq!(stepper.speeds(1), [5]);
        stepper.does(4, &[NOW, 9, 2]);
    }
    assert_eq!(stepper.speeds(2), [5, 6]);
}

#[test]
fn other_direction_only_from_rest() {
    for (way, back) in [(0, BACKWARD), (BACKWARD, 0)] {
        let sign = if way == 0 { 1 } else { -1 };
        let mut stepper = Stepper::started(4, NOW | way, 5, 1);
        stepper.does(4, &[WAITS | back, 6, 1]);
        stepper.refuses(NOT_NOW, 5, &[]);
        assert_eq!(stepper.speeds(2), [5 * sign, 5 * sign]);
        stepper.refuses(NOT_NOW, 4, &[NOW | back, 6, 1]);
        assert_eq!(stepper.byte(at::LOAD_WAITS), 1, "the load waits on");
        stepper.ticks_at(1);
        stepper.starts();
        assert_eq!(stepper.speeds(3), [-5 * sign, -6 * sign, -6 * sign], "once at rest");
        stepper.stops(SMOOTH);
        stepper.refuses(NOT_NOW, 4, &[NOW | way, 6, 1]);
        assert_eq!(stepper.speeds(3), [-5 * sign, -4 * sign, 0]);
        stepper.does(4, &[NOW | way, 6, 1]);
    }
}

#[test]
fn load_has_its_count_and_its_values() {
    let mut stepper = Stepper::with_minimum(5);
    for carried in 0..16 {
        let rest = carried_bytes(carried);
        stepper.does(4, &load(carried, rest));
        for count in (0..15).filter(|count| *count != rest) {
            stepper.refuses(WRONG_COUNT, 4, &load(carried, count));
        }
        for bits in [0x20, 0x40, 0x60] {
            stepper.refuses(OUT_OF_RANGE, 4, &load(carried | bits, rest));
            stepper.refuses(OUT_OF_RANGE, 4, &load(carried | bits | 0x90, rest));
            stepper.refuses(WRONG_COUNT, 4, &load(carried | bits, rest + 1));
        }
    }
    stepper.refuses(WRONG_COUNT, 4, &[]);
    for speed in 0..=255 {
        if (1..=250).contains(&speed) {
            stepper.does(4, &[WAITS, speed, 1]);
            assert_eq!(stepper.byte(at::LOAD_SPEED), speed);
        } else {
            stepper.refuses(OUT_OF_RANGE, 4, &[WAITS, speed, 1]);
            stepper.refuses(OUT_OF_RANGE, 4, &[0x82, speed]);
        }
    }
    stepper.does(4, &[WAITS, 1, 255]);
    stepper.refuses(OUT_OF_RANGE, 4, &[WAITS, 1, 0]);
    stepper.refuses(OUT_OF_RANGE, 4, &[0x84, 0]);
    stepper.does(4, &[0x0F, 0xFF, 0xFF, 0xFF, 0xFF, 1, 1, 0xFF, 0xFF, 0xFF]);
}

#[test]
fn position_and_timer_count_are_only_stored() {
    let mut stepper = Stepper::with_minimum(5);
    stepper.does(4, &[0x0F, 1, 2, 3, 4, 6, 1, 5, 6, 7]);
    let stored = |stepper: &Stepper| (stepper.four(at::STORED_POSITION), stepper.four(at::STORED_TIMER));
    assert_eq!(stored(&stepper), (0x0403_0201, 0x0007_0605));
    stepper.starts();
    stepper.stops(SMOOTH);
    stepper.does(4, &[0x08, 8, 9, 10]);
    assert_eq!(stored(&stepper), (0x0403_0201, 0x000A_0908), "used and dropped, and one overwritten");
    // with start now too, but not where that is not now
    stepper.refuses(NOT_NOW, 4, &[0x97, 0xEE, 0xEE, 0xEE, 0xEE, 6, 1]);
    stepper.does(4, &[0x87, 0xFF, 0xFF, 0xFF, 0xFF, 6, 1]);
    assert_eq!(stored(&stepper), (0xFFFF_FFFF, 0x000A_0908));
    stepper.does(4, &[WAITS, 6, 1]);
    assert_eq!(stored(&stepper), (0xFFFF_FFFF, 0x000A_0908));
    assert_eq!(stepper.reply(15, &[]), [], "a Hard Reset draws no reply");
    assert_eq!(stored(&stepper), (0, 0));
}

// ---------------------------------------------------------------- Set Parameters

#[test]
fn only_the_minimum_acts() {
    let mut stepper = Stepper::at_power_up();
    for count in (0..=15).filter(|count| *count != 5) {
        stepper.refuses(WRONG_COUNT, 6, &vec![1; count]);
    }
    for minimum in [0, 251, 255] {
        stepper.refuses(OUT_OF_RANGE, 6, &[0, minimum, 0, 0, 0]);
    }
    for minimum in 1..=250 {
        stepper.does(6, &[0xFF, minimum, 0xFF, 0xFF, 0xFF]);
        assert_eq!(stepper.byte(at::MINIMUM), minimum);
    }
    stepper.parameters(7);
    stepper.does(4, &[NOW, 7, 1]);
    assert_eq!(stepper.speeds(2), [7, 7]);
}

#[test]
fn minimum_stays_while_moving() {
    let mut stepper = Stepper::started(5, NOW, 8, 2);
    stepper.parameters(2);
    assert_eq!(stepper.byte(at::MINIMUM), 5, "between the start and its first tick");
    assert_eq!(stepper.speeds(4), [5, 6, 6, 7]);
    stepper.parameters(200);
    stepper.refuses(OUT_OF_RANGE, 6, &[0, 0, 0, 0, 0]);
    stepper.refuses(OUT_OF_RANGE, 6, &[0, 251, 0, 0, 0]);
    stepper.stops(SMOOTH);
    stepper.parameters(2);
    assert_eq!(stepper.speeds(6), [7, 6, 6, 5, 5, 0]);
    stepper.parameters(2);
    stepper.does(4, &[NOW, 8, 1]);
    assert_eq!(stepper.speeds(2), [3, 4]);
}

// ---------------------------------------------------------------- stops

#[test]
fn abrupt_stop_ends_at_once() {
    for way in [0, BACKWARD] {
        let mut stepper = Stepper::started(5, NOW | way, 8, 1);
        stepper.ticks_at(0);
        let position = stepper.position();
        stepper.does(4, &[WAITS | way, 9, 1]);
        stepper.stops(ABRUPT | AMPLIFIER);
        assert_eq!((stepper.drives(), stepper.position()), ((0, true), position));
        stepper.refuses(NOT_NOW, 5, &[]);
        assert_eq!(stepper.speeds(3), [0; 3]);
        stepper.stops(ABRUPT);
        assert_eq!(stepper.drives(), (0, false), "at rest only the amplifier bit");
    }
}

#[test]
fn smooth_stop_ends_at_rest() {
    let mut stepper = Stepper::started(5, NOW, 7, 3);
    assert_eq!(stepper.speeds(8), [5, 5, 6, 6, 6, 7, 7, 7]);
    stepper.does(4, &[WAITS, 9, 1]);
    stepper.stops(SMOOTH);
    assert_eq!(stepper.speed(), 7);
    stepper.refuses(NOT_NOW, 5, &[]);
    // each third tick one less, to the minimum, and to 0 three ticks after that; with the T that runs
    assert_eq!(stepper.speeds(11), [7, 7, 6, 6, 6, 5, 5, 5, 0, 0, 0]);
    assert_eq!(stepper.net[slot(0)..][at::SPEED..at::POSITION], [0; 6], "nothing is left of it");
    stepper.does(4, &[WAITS, 9, 1]);
    stepper.stops(SMOOTH | AMPLIFIER);
    assert_eq!((stepper.drives(), stepper.byte(at::LOAD_WAITS)), ((0, true), 0), "at rest it drops a load");
    assert_eq!(stepper.speeds(3), [0; 3]);
}

#[test]
fn smooth_stop_at_the_minimum_takes_t_ticks() {
    for time in [1, 2, 3, 255] {
        for ticks_before in [0, 1, 2, 300] {
            let mut stepper = Stepper::started(5, NOW, 1, time);
            stepper.speeds(ticks_before);
            stepper.stops(SMOOTH);
            let mut expected = vec![5; usize::from(time) - 1];
            expected.extend([0, 0]);
            assert_eq!(stepper.speeds(usize::from(time) + 1), expected, "T {time}, after {ticks_before}");
        }
    }
}

#[test]
fn smooth_stop_that_is_repeated_is_put_off() {
    let mut stepper = Stepper::started(5, NOW, 6, 3);
    assert_eq!(stepper.speeds(4), [5, 5, 6, 6]);
    for _ in 0..100 {
        stepper.stops(SMOOTH);
        assert_eq!(stepper.speeds(2), [6, 6], "two of three ticks, again and again");
    }
    stepper.stops(SMOOTH);
    assert_eq!(stepper.speeds(6), [6, 6, 5, 5, 5, 0]);
    // with T 1 every tick is one
    let mut stepper = Stepper::started(5, NOW, 7, 1);
    assert_eq!(stepper.speeds(2), [6, 7]);
    for speed in [6, 5, 0, 0] {
        stepper.stops(SMOOTH);
        assert_eq!(stepper.speeds(1), [speed]);
    }
}

#[test]
fn start_in_a_smooth_stop_goes_on() {
    let mut stepper = Stepper::started(5, NOW, 9, 1);
    stepper.speeds(4);
    stepper.stops(SMOOTH);
    assert_eq!(stepper.speeds(2), [8, 7]);
    stepper.does(4, &[NOW, 8, 2]);
    assert_eq!(stepper.speeds(5), [7, 8, 8, 8, 8], "and no longer stops");
    stepper.stops(SMOOTH);
    stepper.does(4, &[WAITS, 8, 1]);
    assert_eq!(stepper.speeds(2), [8, 7], "a load that waits leaves it stopping");
    stepper.starts();
    assert_eq!(stepper.speeds(2), [8, 8]);
}

#[test]
fn stop_with_neither_bit_is_the_amplifier_alone() {
    let mut stepper = Stepper::started(5, NOW, 6, 2);
    stepper.does(4, &[WAITS, 9, 1]);
    stepper.ticks_at(0);
    let mut expected = stepper.net[slot(0)..slot(1)].to_vec();
    for amplifier in [1, 0, 1, 0] {
        stepper.stops(amplifier);
        expected[at::AMPLIFIER] = amplifier;
        assert_eq!(stepper.net[slot(0)..slot(1)], expected);
        assert_eq!(stepper.drives(), (5, amplifier == 1), "it moves all the same");
    }
    assert_eq!(stepper.speeds(1), [6], "T is not counted anew");
}

#[test]
fn stop_takes_six_bytes_and_no_other() {
    let mut stepper = Stepper::started(5, NOW, 9, 1);
    for control in (0..=255).filter(|control| ![0, 1, 4, 5, 8, 9].contains(control)) {
        stepper.refuses(OUT_OF_RANGE, 7, &[control]);
        stepper.refuses(WRONG_COUNT, 7, &[control, 0]);
    }
    stepper.refuses(WRONG_COUNT, 7, &[]);
    stepper.refuses(WRONG_COUNT, 7, &[4, 0, 0, 0, 0]);
    assert_eq!(stepper.speeds(1), [6]);
}

// ---------------------------------------------------------------- the stop input

#[test]
fn stop_input_ends_the_motion_and_keeps_the_rest() {
    for (way, sign) in [(0, 1), (BACKWARD, -1)] {
        let mut stepper = Stepper::started(5, NOW | way, 8, 1);
        stepper.stops(AMPLIFIER);
        stepper.does(4, &[WAITS | way, 7, 1]);
        assert_eq!(stepper.speeds(2), [6 * sign, 7 * sign]);
        stepper.ticks_at(1);
        assert_eq!((stepper.drives(), stepper.position()), ((0, true), 13 * sign), "not a step more");
        assert_eq!(stepper.byte(at::LOAD_WAITS), 1);
        assert_eq!(stepper.speeds(3), [0; 3], "also when the input is 0 again");
        stepper.starts();
        assert_eq!(stepper.speed(), 5 * sign);
        assert_eq!(stepper.speeds(3), [6 * sign, 7 * sign, 7 * sign]);
    }
}

#[test]
fn start_at_stop_input_1_is_executed() {
    let mut stepper = Stepper::with_minimum(5);
    stepper.ticks_at(1);
    stepper.does(4, &[NOW, 8, 1]);
    assert_eq!(stepper.speed(), 5);
    stepper.ticks_at(1);
    assert_eq!((stepper.speed(), stepper.position()), (0, 0), "the next tick ends it");
    stepper.does(4, &[NOW, 8, 1]);
    assert_eq!(stepper.speeds(2), [6, 7], "unless the input is 0 by then");
}

#[test]
fn stop_input_ends_a_smooth_stop() {
    let mut stepper = Stepper::started(5, NOW, 8, 2);
    stepper.speeds(6);
    stepper.stops(SMOOTH);
    stepper.ticks_at(1);
    assert_eq!(stepper.net[slot(0)..][at::SPEED..at::POSITION], [0; 6]);
    stepper.does(4, &[NOW, 8, 2]);
    assert_eq!(stepper.speeds(4), [5, 6, 6, 7]);
}

/// Speeds at the three steppers of a chain with a servo and an I/O module among them.
fn speeds_of_three(net: &[u8]) -> [u8; 3] {
    [0, 2, 4].map(|place| net[slot(place) + at::SPEED])
}

#[test]
fn each_stepper_meets_its_own_stop_input() {
    let mut net = vec![0x99; NET_LEN];
    assert_eq!(Library.setup(&mut net, &[3, 0, 3, 2, 3]), DONE);
    let send = |net: &mut [u8], address: u8, code: u8, data: &[u8]| {
        for byte in frame_bytes(address, code, data) {
            assert!(Library.byte(net, 0, byte, &mut [0; ROOM_LEN], &mut 0) <= UNDAMAGED);
        }
    };
    for address in 1..=5 {
        send(&mut net, 0, 1, &[address, 0xFF]);
    }
    send(&mut net, 0xFF, 6, &[0, 5, 0, 0, 0]);
    send(&mut net, 0xFF, 4, &[NOW, 9, 1]);
    assert_eq!(speeds_of_three(&net), [5; 3], "one frame starts all");
    for (stops, speeds) in [([0, 0, 0], [6; 3]), ([0, 1, 0], [7, 0, 7]), ([1, 0, 0], [0, 0, 8]), ([0, 0, 1], [0; 3])] {
        let [first, second, third] = stops.map(stepper_sample);
        let list = [first, servo_sample(1, 1, 1, 0), second, io_sample(1, [1; 3], 1), third];
        assert_eq!(Library.tick(&mut net, &list.concat()), DONE);
        assert_eq!(speeds_of_three(&net), speeds, "stop inputs {stops:?}");
    }
}

#[test]
fn refused_tick_ends_nothing() {
    let mut stepper = Stepper::started(5, NOW, 8, 1);
    stepper.ticks_at(0);
    let before = stepper.net.clone();
    for list in [&stepper_sample(2)[..], &stepper_sample(255), &servo_sample(0, 1, 0, 0), &[3, 1], &[]] {
        assert_ne!(Library.tick(&mut stepper.net, list), DONE);
        assert_eq!(stepper.net, before);
    }
    assert_eq!(stepper.speeds(1), [7]);
}

// ---------------------------------------------------------------- Hard Reset and damaged frames

#[test]
fn hard_reset_is_power_up() {
    let mut stepper = Stepper::started(5, NOW | BACKWARD, 8, 2);
    stepper.stops(AMPLIFIER);
    stepper.does(4, &[0x1F, 1, 2, 3, 4, 6, 1, 5, 6, 7]);
    stepper.does(2, &[0x21]);
    stepper.ticks_at(0);
    assert_eq!(stepper.reply(15, &[]), []);
    assert_eq!(stepper.net, Stepper::at_power_up().net);
    stepper.does(4, &[WAITS, 6, 1]);
    stepper.refuses(NOT_NOW, 5, &[]);
}

#[test]
fn damaged_frame_changes_nothing() {
    let mut stepper = Stepper::started(5, NOW, 8, 2);
    let before = stepper.net.clone();
    for (code, data) in [(7, &[4][..]), (4, &[NOW, 9, 1]), (6, &[0, 1, 0, 0, 0]), (15, &[])] {
        let mut frame = frame_bytes(0, code, data);
        *frame.last_mut().unwrap() ^= 0x10;
        let (mut room, mut written) = ([0; ROOM_LEN], 0);
        for byte in frame {
            Library.byte(&mut stepper.net, 0, byte, &mut room, &mut written);
        }
        assert_eq!(room[..written], [3, 3]);
        assert_eq!(stepper.byte(CAUSE), CAUSE_DAMAGED);
        stepper.net[slot(0) + CAUSE] = 0;
        assert_eq!(stepper.net, before, "code {code}");
    }
}
