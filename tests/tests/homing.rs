//! Homing (document 02, P8) through the C calls: what Set Homing takes, the tick that finds home, its stop in every mode,
//! and what leaves homing in progress. The numbers are worked out by hand from the paper.

use doljurven_tests::calls::*;
use doljurven_tests::capi::Library;
use doljurven_tests::model::{frame_bytes, NOT_NOW, OUT_OF_RANGE, UNKNOWN, WRONG_COUNT};
use doljurven_tests::record::{at, slot, CAUSE, SLOT_LEN};

const ONE: i32 = 65_536;

/// Limit inputs, and the bits that watch them.
const LIMIT_1: u8 = 1;
const LIMIT_2: u8 = 2;

/// Stop bits of Set Homing.
const NONE: u8 = 0x00;
const OFF: u8 = 0x04;
const ABRUPT: u8 = 0x10;
const SMOOTH: u8 = 0x20;
const STOPS: [u8; 4] = [NONE, OFF, ABRUPT, SMOOTH];

/// All that Set Homing takes.
const GOOD: [u8; 12] = [0x01, 0x02, 0x03, 0x05, 0x06, 0x07, 0x11, 0x12, 0x13, 0x21, 0x22, 0x23];

/// Status bits.
const DONE_BIT: u8 = 0x01;
const FAULT: u8 = 0x02;
const CUT: u8 = 0x04;
const POWER: u8 = 0x08;
const ERROR: u8 = 0x10;
const HOMING: u8 = 0x80;

/// Modes as the record has them.
const IS_OFF: u8 = 0;
const IN_PWM: u8 = 1;
const HOLDING: u8 = 2;
const VELOCITY: u8 = 3;
const TRAPEZOID: u8 = 4;
const MODES: [u8; 5] = [IS_OFF, IN_PWM, HOLDING, VELOCITY, TRAPEZOID];

/// Kp 256, so that the output is the error; OL 255, EL 16,383.
const GAINS: [u8; 15] = [0, 1, 0, 0, 0, 0, 0, 0, 255, 0, 0xFF, 0x3F, 1, 0, 1];

/// A PWM load that waits.
const LOAD: [u8; 2] = [0x08, 77];

/// A servo alone, at address 0.
#[derive(Clone)]
struct Servo {
    net: Vec<u8>,
}

impl Servo {
    fn at_power_up() -> Servo {
        let mut net = vec![0x99; NET_LEN];
        assert_eq!(Library.setup(&mut net, &[0]), DONE);
        Servo { net }
    }

    /// Off, the motor at a raw count with these inputs, power good, error bit clear.
    fn at(raw: i32, inputs: u8) -> Servo {
        Servo::with_gains(raw, inputs, &GAINS)
    }

    fn with_gains(raw: i32, inputs: u8, gains: &[u8; 15]) -> Servo {
        let mut servo = Servo::at_power_up();
        servo.ticks(raw, 1, inputs);
        servo.does(6, gains);
        servo.does(11, &[]);
        servo
    }

    fn ticks(&mut self, raw: i32, power: u8, inputs: u8) {
        assert_eq!(Library.tick(&mut self.net, &servo_sample(raw as u32, power, 0, inputs)), DONE);
    }

    /// Sends a frame; gives the whole reply.
    fn reply(&mut self, code: u8, data: &[u8]) -> Vec<u8> {
        let (mut room, mut written) = ([0; ROOM_LEN], 0);
        for byte in frame_bytes(0, code, data) {
            assert!(Library.byte(&mut self.net, 0, byte, &mut room, &mut written) <= UNDAMAGED);
        }
        room[..written].to_vec()
    }

    fn does(&mut self, code: u8, data: &[u8]) {
        let status = self.reply(code, data)[0];
        assert_eq!(status & FAULT, 0, "code {code}, data {data:X?}: status {status:02X}");
    }

    /// The frame leaves its cause and nothing else.
    fn refuses(&mut self, cause: u8, code: u8, data: &[u8]) {
        let before = self.net.clone();
        let status = self.reply(code, data)[0];
        assert_eq!((status & FAULT, self.cause()), (FAULT, cause), "code {code}, data {data:X?}");
        self.net[slot(0) + CAUSE] = before[slot(0) + CAUSE];
        assert_eq!(self.net, before, "code {code}, data {data:X?}");
    }

    fn homes(&mut self, byte: u8) {
        self.does(9, &[byte]);
    }

    /// Hard Reset, which draws no reply.
    fn resets(&mut self) {
        assert_eq!(self.reply(15, &[]), []);
    }

    fn loads(&mut self, control: u8, numbers: &[i32]) {
        let numbers = numbers.iter().flat_map(|number| number.to_le_bytes());
        let data: Vec<u8> = [control].into_iter().chain(numbers).collect();
        self.does(4, &data);
    }

    fn status(&mut self) -> u8 {
        self.reply(14, &[])[0]
    }

    /// Item 4, as a reply shows it.
    fn home(&mut self) -> i32 {
        let reply = self.reply(3, &[0x10]);
        i32::from_le_bytes(reply[1..5].try_into().unwrap())
    }

    fn position(&mut self) -> i32 {
        let reply = self.reply(3, &[0x01]);
        i32::from_le_bytes(reply[1..5].try_into().unwrap())
    }

    fn cause(&self) -> u8 {
        let mut cause = 0xEE;
        assert_eq!(Library.cause(&self.net, 0, &mut cause), DONE);
        cause
    }

    /// The output with its sign, and the enable line.
    fn drives(&self) -> (i32, bool) {
        let mut outputs = [0xEE; 8];
        assert_eq!(Library.outputs(&self.net, 0, &mut outputs), DONE);
        let size = i32::from(outputs[0]);
        (if outputs[1] == 1 { -size } else { size }, outputs[2] == 1)
    }

    fn byte(&self, at: usize) -> u8 {
        self.net[slot(0) + at]
    }

    fn four(&self, at: usize) -> i32 {
        i32::from_le_bytes(self.net[slot(0) + at..][..4].try_into().unwrap())
    }

    fn mode(&self) -> u8 {
        self.byte(at::MODE)
    }

    /// The setpoint's whole part.
    fn setpoint(&self) -> i32 {
        self.four(at::SETPOINT + 2)
    }

    fn load_waits(&self) -> bool {
        self.byte(at::LOAD_WAITS) == 1
    }

    fn is_homing(&self) -> bool {
        self.byte(at::HOMING) != 0
    }

    fn own(&self) -> Vec<u8> {
        self.net[slot(0)..slot(1)].to_vec()
    }
}

// ---------------------------------------------------------------- what Set Homing takes

#[test]
fn twelve_bytes_are_taken_and_no_others() {
    let mut taken = 0;
    for byte in 0..=255 {
        let mut servo = Servo::at_power_up();
        let mut expected = servo.own();
        if GOOD.contains(&byte) {
            // off without power and with the error bit set: it is never not now
            assert_eq!(servo.reply(9, &[byte]), [HOMING | ERROR | DONE_BIT; 2], "byte {byte:02X}");
            expected[at::HOMING] = byte;
            assert_eq!(servo.own(), expected, "byte {byte:02X} is stored, and nothing else");
            taken += 1;
        } else {
            servo.refuses(OUT_OF_RANGE, 9, &[byte]);
            servo.homes(0x23);
            servo.refuses(OUT_OF_RANGE, 9, &[byte]);
            assert_eq!(servo.status(), HOMING | ERROR | DONE_BIT, "byte {byte:02X} cancels nothing");
        }
    }
    assert_eq!(taken, 12);
}

#[test]
fn another_count_than_one_comes_before_the_byte() {
    let mut servo = Servo::at_power_up();
    for round in [NONE, LIMIT_1] {
        servo.refuses(WRONG_COUNT, 9, &[]);
        for byte in 0..=255 {
            for more in [1, 2, 14] {
                servo.refuses(WRONG_COUNT, 9, &[vec![byte], vec![1; more]].concat());
            }
        }
        assert_eq!(servo.is_homing(), round != NONE);
        servo.homes(LIMIT_1);
    }
}

#[test]
fn other_types_do_not_know_it() {
    for module_type in [2, 3] {
        let mut net = vec![0x99; NET_LEN];
        assert_eq!(Library.setup(&mut net, &[module_type]), DONE);
        let mut module = Servo { net };
        module.refuses(UNKNOWN, 9, &[]);
        module.refuses(UNKNOWN, 9, &[1, 1]);
        for byte in 0..=255 {
            module.refuses(UNKNOWN, 9, &[byte]);
        }
    }
}

#[test]
fn taken_in_every_mode_at_every_power() {
    for mode in MODES {
        for power in [0, 1, 2] {
            for byte in GOOD {
                let mut servo = in_mode(mode, 0);
                servo.ticks(98, power, 0);
                let mut expected = servo.own();
                servo.homes(byte);
                expected[at::HOMING] = byte;
                assert_eq!(servo.own(), expected, "byte {byte:02X}, mode {mode}, power {power}");
                assert_eq!(servo.status() & HOMING, HOMING);
            }
        }
    }
}

// ---------------------------------------------------------------- every byte in every mode

/// The motor at 96, in a mode: PWM 50; holding 90; or two ticks on the way from 90, with velocity 8 and acceleration 2, by
/// velocity mode or to 190. The setpoint is then 96, the speed 4.
fn in_mode(mode: u8, inputs: u8) -> Servo {
    let mut servo = Servo::at(90, inputs);
    match mode {
        IN_PWM => servo.does(4, &[0x88, 50]),
        HOLDING => servo.does(7, &[0x04]),
        VELOCITY => servo.loads(0xB6, &[8 * ONE, 2 * ONE]),
        TRAPEZOID => servo.loads(0x97, &[190, 8 * ONE, 2 * ONE]),
        _ => {}
    }
    servo.ticks(92, 1, inputs);
    servo.ticks(96, 1, inputs);
    assert_eq!(servo.mode(), mode);
    if mode >= VELOCITY {
        assert_eq!((servo.setpoint(), servo.four(at::SPEED)), (96, 4 * ONE));
    }
    servo
}

/// What a servo is after a tick, at power 1 with the motor at 100.
struct After {
    mode: u8,
    setpoint: i32,
    speed: i32,
    output: i32,
    done: bool,
}

/// A tick in a mode with such a stop.
fn after(mode: u8, stop: u8) -> After {
    let off = After { mode: IS_OFF, setpoint: 0, speed: 0, output: 0, done: true };
    match (mode, stop) {
        // holds the 100 at which the motor is
        (_, ABRUPT) => After { mode: HOLDING, setpoint: 100, ..off },
        (_, OFF) | (IS_OFF, _) | (IN_PWM, SMOOTH) => off,
        (IN_PWM, _) => After { mode: IN_PWM, output: 50, ..off },
        (HOLDING, NONE) => After { mode: HOLDING, setpoint: 90, output: -10, ..off },
        // velocity mode with goal speed 0, which it has
        (HOLDING, _) => After { mode: VELOCITY, setpoint: 90, output: -10, ..off },
        // from speed 4 to 6
        (mode, NONE) => After { mode, setpoint: 102, speed: 6, output: 2, done: false },
        // from speed 4 to 2 already
        (_, _) => After { mode: VELOCITY, setpoint: 98, speed: 2, output: -2, done: false },
    }
}

/// One finding tick, or one that finds nothing: a byte in a mode, inputs before and after, power, whether a load waits and
/// the amplifier is on.
struct Case {
    mode: u8,
    byte: u8,
    inputs: u8,
    change: u8,
    power: u8,
    waits: bool,
    amplifier: bool,
}

impl Case {
    fn found(&self) -> bool {
        self.byte & self.change != 0
    }

    /// The stop that acts: abrupt not at power 0 and 2.
    fn stop(&self) -> u8 {
        match self.byte & !3 {
            _ if !self.found() => NONE,
            ABRUPT if self.power != 1 => NONE,
            stop => stop,
        }
    }

    fn runs(&self) {
        let Case { mode, byte, inputs, change, power, waits, amplifier } = *self;
        let told = format!(
            "mode {mode}, byte {byte:02X}, inputs {inputs} to {}, power {power}, load {waits}, amplifier {amplifier}",
            inputs ^ change
        );
        let mut servo = in_mode(mode, inputs);
        if amplifier {
            servo.does(7, &[0x01]);
        }
        if waits {
            servo.does(4, &LOAD);
        }
        servo.homes(byte);
        servo.reply(5, &[0]);
        assert_eq!(servo.cause(), WRONG_COUNT);
        servo.ticks(100, power, inputs ^ change);

        assert_eq!(servo.cause(), WRONG_COUNT, "{told}: no frame was executed");
        assert_eq!(servo.byte(at::HOMING), if self.found() { 0 } else { byte }, "{told}");
        assert_eq!(servo.four(at::HOME), if self.found() { 100 } else { 0 }, "{told}");
        assert_eq!(servo.load_waits(), waits && self.stop() == NONE, "{told}");
        assert_eq!(servo.byte(at::AMPLIFIER), u8::from(amplifier), "{told}");
        let after = match power {
            0 => after(IS_OFF, NONE),
            _ => after(mode, self.stop()),
        };
        assert_eq!(servo.mode(), after.mode, "{told}");
        assert_eq!(servo.four(at::SPEED), after.speed * ONE, "{told}");
        if after.mode >= HOLDING {
            assert_eq!(servo.setpoint(), after.setpoint, "{told}");
        }
        let output = if power == 1 { after.output } else { 0 };
        assert_eq!(servo.drives(), (output, amplifier && power == 1), "{told}");
        let homing = if self.found() { 0 } else { HOMING };
        let done = if after.done { DONE_BIT } else { 0 };
        let good = if power == 1 { POWER } else { 0 };
        assert_eq!(servo.status(), homing | (inputs ^ change) << 5 | done | good, "{told}");
        assert_eq!(servo.home(), if self.found() { 100 } else { 0 }, "{told}: item 4");

        // back in the next tick: homing has ended and home stays, or goes on where nothing watched had changed
        servo.ticks(107, 1, inputs);
        let home = if self.found() { 100 } else { 0 };
        assert_eq!((servo.home(), servo.is_homing()), (home, !self.found()), "{told}, then back");
    }
}

#[test]
fn every_good_byte_in_every_mode() {
    let mut found = 0;
    for (mode, byte) in MODES.into_iter().flat_map(|mode| GOOD.map(|byte| (mode, byte))) {
        for (inputs, change) in (0..4).flat_map(|inputs| [1, 2, 3].map(|change| (inputs, change))) {
            for power in [0, 1, 2] {
                for waits in [false, true] {
                    let case = Case { mode, byte, inputs, change, power, waits, amplifier: (inputs ^ power) & 1 == 1 };
                    case.runs();
                    found += usize::from(case.found());
                }
            }
        }
    }
    // of the three changes a byte that watches one input finds two, one that watches both all: 7 of 9
    assert_eq!(found, MODES.len() * STOPS.len() * 7 * 4 * 3 * 2);
}

#[test]
fn amplifier_bit_is_kept_in_every_mode() {
    for mode in MODES {
        for stop in STOPS {
            for power in [0, 1, 2] {
                for amplifier in [false, true] {
                    let case = Case { mode, byte: 3 | stop, inputs: 1, change: 3, power, waits: true, amplifier };
                    case.runs();
                }
            }
        }
    }
}

#[test]
fn level_is_no_change() {
    for inputs in 0..4 {
        for byte in GOOD {
            let mut servo = in_mode(HOLDING, inputs);
            servo.homes(byte);
            for raw in 100..120 {
                servo.ticks(raw, 1, inputs);
            }
            assert_eq!((servo.home(), servo.byte(at::HOMING)), (0, byte), "inputs {inputs}");
            // to the other level, whichever it was
            servo.ticks(120, 1, inputs ^ 3);
            assert_eq!((servo.home(), servo.is_homing()), (120, false), "inputs {inputs}, byte {byte:02X}");
        }
    }
}

#[test]
fn without_homing_the_inputs_are_only_shown() {
    for mode in MODES {
        let mut servo = in_mode(mode, 0);
        servo.does(4, &LOAD);
        let mut still = servo.clone();
        for inputs in [1, 3, 2, 0, 3, 0] {
            servo.ticks(98, 1, inputs);
            still.ticks(98, 1, 0);
            let mut expected = still.own();
            expected[at::INPUTS] = inputs;
            assert_eq!(servo.own(), expected, "mode {mode}, inputs {inputs}");
            assert_eq!(servo.status() & 0xE0, inputs << 5);
        }
    }
}

// ---------------------------------------------------------------- the tick that finds home

#[test]
fn abrupt_stop_runs_its_filter_with_error_0() {
    // Kp, Kd and Ki 256, IL 100
    let gains = [0, 1, 0, 1, 0, 1, 100, 0, 255, 0, 0xFF, 0x3F, 1, 0, 1];
    let mut servo = Servo::with_gains(0, 0, &gains);
    servo.does(7, &[0x05]);
    servo.homes(LIMIT_1 | ABRUPT);
    servo.ticks(-7, 1, 0);
    // 7 + 7 + 7
    assert_eq!((servo.drives(), servo.four(at::INTEGRAL), servo.four(at::PREVIOUS_ERROR)), ((21, true), 7, 7));
    servo.ticks(-20, 1, 1);
    assert_eq!((servo.drives(), servo.four(at::INTEGRAL), servo.four(at::PREVIOUS_ERROR)), ((0, true), 0, 0));
    assert_eq!((servo.setpoint(), servo.home()), (-20, -20), "both are the position of that very tick");
    servo.ticks(-21, 1, 1);
    assert_eq!(servo.drives(), (3, true), "held there: 1 + 1 + 1");
}

#[test]
fn smooth_stop_slows_in_the_same_tick_with_the_running_acceleration() {
    let mut servo = Servo::at(0, 0);
    servo.loads(0xF6, &[8 * ONE, 2 * ONE]);
    for _ in 0..5 {
        servo.ticks(0, 1, 0);
    }
    assert_eq!(servo.four(at::SPEED), -8 * ONE);
    servo.homes(LIMIT_2 | SMOOTH);
    // a load with another acceleration is dropped
    servo.loads(0x36, &[9 * ONE, 7 * ONE]);
    let speeds = [-6, -4, -2, 0, 0].map(|speed| {
        servo.ticks(0, 1, 2);
        assert_eq!(servo.four(at::SPEED), speed * ONE);
        servo.status()
    });
    let moving = POWER | LIMIT_2 << 5;
    assert_eq!(speeds, [moving, moving, moving, moving | DONE_BIT, moving | DONE_BIT]);
    servo.refuses(NOT_NOW, 5, &[]);
}

#[test]
fn home_is_the_position_with_its_sign_and_its_offset() {
    for (offset, raw) in [(0, i32::MAX), (0, i32::MIN), (5, 3), (i32::MIN, i32::MAX), (i32::MAX, i32::MIN), (-1, 0)] {
        let mut servo = Servo::at(offset, 0);
        servo.does(0, &[]);
        servo.homes(LIMIT_1);
        servo.ticks(raw, 1, 1);
        let home = raw.wrapping_sub(offset);
        assert_eq!((servo.home(), servo.position()), (home, home), "raw {raw} less {offset}");
    }
}

#[test]
fn each_servo_finds_its_own_home() {
    let mut net = vec![0x99; NET_LEN];
    assert_eq!(Library.setup(&mut net, &[0, 2, 0, 3, 0]), DONE);
    let home = |net: &[u8], place| net[slot(place) + at::HOME..slot(place) + at::HOMING + 1].to_vec();
    let homing = |net: &mut [u8], place: usize, byte| net[slot(place) + at::HOMING] = byte;
    homing(&mut net, 0, 0x01);
    homing(&mut net, 2, 0x02);
    homing(&mut net, 4, 0x03);
    let (io, stepper) = (io_sample(3, [0; 3], 0), stepper_sample(0));
    let list = [servo_sample(7, 1, 0, 2), io, servo_sample(8, 1, 0, 2), stepper, servo_sample(9, 1, 0, 0)];
    assert_eq!(Library.tick(&mut net, &list.concat()), DONE);
    assert_eq!(home(&net, 0), [0, 0, 0, 0, 0x01], "limit 2 is not watched");
    assert_eq!(home(&net, 2), [8, 0, 0, 0, 0]);
    assert_eq!(home(&net, 4), [0, 0, 0, 0, 0x03], "no input has changed");
}

// ---------------------------------------------------------------- power and the error bit

#[test]
fn with_the_error_bit_set_an_abrupt_stop_is_skipped() {
    for byte in GOOD {
        let mut servo = Servo::at_power_up();
        servo.ticks(90, 1, 0);
        servo.does(4, &LOAD);
        servo.homes(byte);
        servo.ticks(100, 1, 3);
        let skipped = byte & ABRUPT != 0;
        assert_eq!(servo.load_waits(), skipped || byte & !3 == NONE, "byte {byte:02X}");
        assert_eq!(servo.status(), 3 << 5 | ERROR | POWER | DONE_BIT, "byte {byte:02X}: off, bit 4 as it was");
        assert_eq!((servo.home(), servo.mode()), (100, IS_OFF), "byte {byte:02X}");
    }
}

#[test]
fn dip_in_the_finding_tick() {
    // Q8.14 of the readings: home and end in all; smooth and off drop the load, abrupt is skipped
    for mode in MODES {
        for (byte, waits) in [(0x21, false), (0x05, false), (0x11, true), (0x01, true)] {
            let mut servo = in_mode(mode, 0);
            servo.does(7, &[0x01]);
            servo.does(4, &LOAD);
            servo.homes(byte);
            let aim = servo.four(at::GOAL_SPEED);
            servo.ticks(100, 0, 1);
            assert_eq!((servo.home(), servo.is_homing(), servo.mode()), (100, false, IS_OFF), "byte {byte:02X}");
            assert_eq!((servo.drives(), servo.byte(at::AMPLIFIER)), ((0, false), 1));
            assert_eq!(servo.four(at::GOAL_SPEED), aim, "off already, so a smooth stop stays off");
            assert_eq!(servo.load_waits(), waits, "byte {byte:02X}");
            servo.ticks(100, 1, 1);
            if waits {
                servo.does(5, &[]);
                assert_eq!(servo.mode(), IN_PWM, "byte {byte:02X}");
            } else {
                servo.refuses(NOT_NOW, 5, &[]);
            }
        }
    }
}

#[test]
fn power_is_that_of_the_finding_tick() {
    for before in [0, 1, 2] {
        for power in [0, 1, 2] {
            let mut servo = Servo::at(90, 0);
            servo.ticks(90, before, 0);
            servo.homes(LIMIT_1 | ABRUPT);
            servo.ticks(100, power, 1);
            let mode = if power == 1 { HOLDING } else { IS_OFF };
            assert_eq!((servo.mode(), servo.home()), (mode, 100), "power {before}, then {power}");
        }
    }
}

#[test]
fn abrupt_stop_after_a_dip_turns_the_servo_on() {
    // Q8.16: armed, power 0, power back, the switch changes, and no frame in between
    let mut servo = Servo::at(0, 0);
    servo.does(7, &[0x05]);
    servo.homes(LIMIT_1 | ABRUPT);
    servo.ticks(3, 0, 0);
    assert_eq!((servo.mode(), servo.drives(), servo.is_homing()), (IS_OFF, (0, false), true));
    servo.ticks(4, 1, 0);
    assert_eq!((servo.mode(), servo.drives(), servo.is_homing()), (IS_OFF, (0, true), true));
    servo.ticks(7, 1, 1);
    assert_eq!((servo.mode(), servo.setpoint(), servo.drives()), (HOLDING, 7, (0, true)));
    assert_eq!((servo.home(), servo.status()), (7, LIMIT_1 << 5 | POWER | DONE_BIT));
    servo.ticks(5, 1, 1);
    assert_eq!(servo.drives(), (2, true), "it holds 7, and begins no motion");
}

#[test]
fn trip_in_the_finding_tick() {
    // Q8.15: holding 0, EL 10, raw 50
    for (byte, status) in [(0x11, 0x29), (0x05, 0x29), (0x21, 0x39), (0x01, 0x39)] {
        let mut gains = GAINS;
        (gains[10], gains[11]) = (10, 0);
        let mut servo = Servo::with_gains(0, 0, &gains);
        servo.does(7, &[0x05]);
        servo.homes(byte);
        servo.ticks(50, 1, 1);
        assert_eq!((servo.status(), servo.home()), (status, 50), "byte {byte:02X}");
        assert_eq!(servo.mode(), if byte == 0x11 { HOLDING } else { IS_OFF });
    }
}

#[test]
fn home_after_a_cut_tick() {
    // Q8.15: holding 0 with OL 9, ten counts to put out
    let powers = [(1, [(0x11, 0x29), (0x05, 0x29), (0x21, 0x2D)]), (2, [(0x11, 0x25), (0x21, 0x25), (0x05, 0x21)])];
    for (power, statuses) in powers {
        for (byte, status) in statuses {
            let mut gains = GAINS;
            gains[8] = 9;
            let mut servo = Servo::with_gains(0, 0, &gains);
            servo.does(7, &[0x05]);
            servo.homes(byte);
            servo.ticks(-10, 1, 0);
            assert_eq!(servo.status(), HOMING | POWER | CUT | DONE_BIT);
            servo.ticks(-10, power, 1);
            assert_eq!((servo.status(), servo.home()), (status, -10), "byte {byte:02X}, power {power}");
        }
    }
}

// ---------------------------------------------------------------- what ends homing, and what shifts home

/// Frames that leave homing in progress, executed or not.
const LEAVE_HOMING: [(u8, &[u8]); 18] = [
    (7, &[0x02]),
    (7, &[0x03]),
    (7, &[0x05]),
    (7, &[0x08]),
    (7, &[0x11, 5, 0, 0, 0]),
    (7, &[0x00]),
    (4, &[0xB6, 0, 0, 1, 0, 0, 0, 1, 0]),
    (4, &[0x97, 9, 0, 0, 0, 0, 0, 1, 0, 0, 0, 1, 0]),
    (7, &[0x05]),
    (4, &[0x88, 5]),
    (4, &[0x08, 5]),
    (5, &[]),
    (6, &GAINS),
    (11, &[]),
    (3, &[0xFF]),
    (9, &[0x00]),
    (9, &[0x33]),
    (14, &[1]),
];

#[test]
fn nothing_but_home_and_hard_reset_ends_homing() {
    let mut servo = Servo::at(0, 2);
    servo.homes(LIMIT_2);
    for (code, data) in LEAVE_HOMING {
        servo.reply(code, data);
        for power in [1, 2, 0, 1] {
            servo.ticks(3, power, 2);
            // limit 1 is not watched
            servo.ticks(4, power, 3);
        }
        assert_eq!((servo.byte(at::HOMING), servo.home()), (LIMIT_2, 0), "code {code}, data {data:X?}");
    }
    // a trip
    servo.does(7, &[0x05]);
    servo.ticks(20_000, 1, 2);
    assert_eq!(servo.status(), HOMING | LIMIT_2 << 5 | ERROR | POWER | DONE_BIT);
    servo.ticks(20_001, 1, 0);
    assert_eq!((servo.home(), servo.status()), (20_001, ERROR | POWER | DONE_BIT));
}

#[test]
fn refused_tick_finds_nothing() {
    let mut servo = in_mode(VELOCITY, 0);
    servo.homes(LIMIT_1 | OFF);
    let before = servo.net.clone();
    for inputs in 4..=255 {
        assert_eq!(Library.tick(&mut servo.net, &servo_sample(100, 1, 0, inputs)), BAD_FIELD, "inputs {inputs}");
    }
    let good = servo_sample(100, 1, 0, 1);
    assert_eq!(Library.tick(&mut servo.net, &servo_sample(100, 3, 0, 1)), BAD_FIELD);
    assert_eq!(Library.tick(&mut servo.net, &good[..9]), BAD_LIST);
    assert_eq!(Library.tick(&mut servo.net, &[2, 1, 0, 100, 0, 0, 0, 1, 0, 0]), BAD_PLACE);
    assert_eq!(servo.net, before);
    assert_eq!(Library.tick(&mut servo.net, &good), DONE);
    assert_eq!((servo.home(), servo.mode()), (100, IS_OFF));
}

#[test]
fn set_homing_again_replaces_what_is_watched() {
    let mut servo = in_mode(HOLDING, 0);
    servo.homes(LIMIT_1 | OFF);
    servo.homes(LIMIT_2 | ABRUPT);
    servo.ticks(100, 1, 1);
    assert_eq!((servo.home(), servo.byte(at::HOMING)), (0, 0x12), "limit 1 is not watched any more");
    servo.ticks(101, 1, 3);
    assert_eq!((servo.home(), servo.mode(), servo.setpoint()), (101, HOLDING, 101), "nor does it go off");
}

#[test]
fn home_keeps_its_number_until_the_next_is_found() {
    let mut servo = Servo::at(0, 0);
    servo.homes(LIMIT_1);
    servo.ticks(10, 1, 1);
    assert_eq!((servo.home(), servo.is_homing()), (10, false));
    servo.ticks(11, 1, 0);
    servo.ticks(12, 1, 1);
    assert_eq!(servo.home(), 10, "not armed");
    servo.homes(LIMIT_1 | SMOOTH);
    assert_eq!((servo.home(), servo.status()), (10, HOMING | LIMIT_1 << 5 | POWER | DONE_BIT));
    servo.ticks(13, 1, 1);
    assert_eq!((servo.home(), servo.is_homing()), (10, true), "as it was at the command");
    servo.ticks(14, 1, 0);
    assert_eq!((servo.home(), servo.is_homing()), (14, false));
    // re-armed, and found at once in the next tick
    servo.homes(LIMIT_1 | LIMIT_2);
    servo.ticks(15, 1, 2);
    assert_eq!((servo.home(), servo.is_homing()), (15, false));
}

#[test]
fn reset_position_shifts_home_found_or_not() {
    let mut servo = Servo::at(5, 0);
    assert_eq!(servo.home(), 0);
    servo.does(0, &[]);
    assert_eq!((servo.home(), servo.position()), (-5, 0), "never found");
    servo.homes(LIMIT_1);
    servo.ticks(12, 1, 0);
    servo.does(0, &[]);
    assert_eq!((servo.home(), servo.byte(at::HOMING)), (-12, LIMIT_1), "homing goes on");
    servo.ticks(20, 1, 1);
    assert_eq!((servo.home(), servo.position()), (8, 8));
    servo.ticks(25, 1, 1);
    servo.does(0, &[]);
    assert_eq!((servo.home(), servo.position()), (-5, 0), "home is at 20 of the motor, here is 25");
    // modulo 2^32
    servo.ticks(i32::MIN, 1, 1);
    servo.does(0, &[]);
    assert_eq!(servo.home(), 20_i32.wrapping_sub(i32::MIN));
}

#[test]
fn reset_position_while_moving_leaves_home() {
    let mut servo = in_mode(VELOCITY, 0);
    servo.homes(LIMIT_2);
    servo.ticks(100, 1, 2);
    servo.refuses(NOT_NOW, 0, &[]);
    assert_eq!(servo.home(), 100);
}

#[test]
fn hard_reset_ends_homing_and_keeps_the_inputs() {
    for mode in MODES {
        let mut servo = in_mode(mode, 0);
        servo.homes(LIMIT_1);
        servo.ticks(100, 1, 1);
        servo.homes(0x23);
        servo.ticks(101, 1, 1);
        assert_eq!((servo.home(), servo.is_homing()), (100, true), "mode {mode}");
        servo.resets();
        assert_eq!(servo.status(), LIMIT_1 << 5 | ERROR | POWER | DONE_BIT, "mode {mode}");
        assert_eq!((servo.home(), servo.four(at::HOME), servo.byte(at::HOMING)), (0, 0, 0));
        assert_eq!(servo.byte(at::INPUTS), 1);
        servo.ticks(102, 1, 2);
        assert_eq!((servo.home(), servo.mode()), (0, IS_OFF), "nothing is watched");
    }
}

#[test]
fn power_up_is_without_home() {
    let mut servo = Servo::at_power_up();
    assert_eq!((servo.byte(at::INPUTS), servo.four(at::HOME), servo.byte(at::HOMING)), (0, 0, 0));
    assert_eq!(servo.own()[at::HOMING + 1..], [0; SLOT_LEN - at::HOMING - 1]);
    assert_eq!((servo.status(), servo.home()), (ERROR | DONE_BIT, 0));
}

#[test]
fn all_items_have_home_in_their_middle() {
    let mut servo = Servo::at(0x1234, 0);
    servo.homes(LIMIT_2);
    servo.ticks(0x0102_0304, 1, 2);
    servo.ticks(0x0102_0305, 1, 3);
    let reply = servo.reply(3, &[0xFF]);
    // position, A/D, change, zero, home, type and version, error, zero
    let items = [5, 3, 2, 1, 0, 1, 0, 0, 4, 3, 2, 1, 0, 10, 0, 0, 0];
    assert_eq!((reply[0], &reply[1..18]), (0x69, &items[..]));
    let mut reading = [0; 33];
    assert_eq!(Library.read_status(0, 0xFF, &reply, &mut reading), DONE);
    assert_eq!((reading[0], &reading[17..21]), (0x69, &[4, 3, 2, 1][..]));
}
