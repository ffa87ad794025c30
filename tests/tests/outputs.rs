//! What a servo drives, tick by tick, through the C calls: no reply shows it. The numbers are worked out by hand from
//! the scope paper.

use doljurven_tests::calls::*;
use doljurven_tests::capi::Library;
use doljurven_tests::model::frame_bytes;
use doljurven_tests::record::{at, slot, Model, SLOT_LEN};
use doljurven_tests::slips::Slip;

const ONE: i32 = 65_536;

/// A servo alone, at address 0, of the library or of a model beside it.
struct Servo {
    calls: &'static dyn Calls,
    net: Vec<u8>,
    /// What the board has measured last, and hands over at each tick.
    sample: Sample,
}

#[derive(Clone, Copy)]
struct Gains {
    kp: u16,
    kd: u16,
    ki: u16,
    il: u16,
    ol: u8,
    el: u16,
}

/// Nothing drives, nothing trips.
const NO_GAINS: Gains = Gains { kp: 0, kd: 0, ki: 0, il: 0, ol: 255, el: 16_383 };

impl Servo {
    fn at_power_up(calls: &'static dyn Calls) -> Servo {
        let mut net = vec![0x99; NET_LEN];
        assert_eq!(calls.setup(&mut net, &[0]), DONE);
        Servo { calls, net, sample: no_sample(0) }
    }

    /// Power good, the motor at 0, error bit clear.
    fn ready(gains: Gains) -> Servo {
        Servo::ready_by(&Library, gains)
    }

    fn ready_by(calls: &'static dyn Calls, gains: Gains) -> Servo {
        let mut servo = Servo::at_power_up(calls);
        servo.measures(0, 1);
        servo.tick();
        servo.gains(gains);
        servo.does(11, &[]);
        servo
    }

    fn measures(&mut self, raw: i32, power: u8) {
        self.sample = servo_sample(raw as u32, power, 0, 0);
    }

    fn tick(&mut self) {
        assert_eq!(self.calls.tick(&mut self.net, &self.sample), DONE);
    }

    /// A tick with a sample that is not taken: nothing comes of it.
    fn refused_tick(&mut self) {
        let before = self.net.clone();
        for list in [&servo_sample(0, 3, 0, 0)[..], &io_sample(0, [0; 3], 0), &[]] {
            assert_ne!(self.calls.tick(&mut self.net, list), DONE);
            assert_eq!(self.net, before);
        }
    }

    /// Sends a frame; gives the status byte.
    fn sends(&mut self, code: u8, data: &[u8]) -> u8 {
        let (mut room, mut written) = ([0; ROOM_LEN], 0);
        let bytes = frame_bytes(0, code, data);
        for (at, byte) in bytes.iter().enumerate() {
            let number = self.calls.byte(&mut self.net, 0, *byte, &mut room, &mut written);
            assert_eq!(number, if at + 1 == bytes.len() { UNDAMAGED } else { DONE });
        }
        assert_eq!((written, room[0]), (2, room[1]), "a status byte and its sum");
        room[0]
    }

    fn does(&mut self, code: u8, data: &[u8]) {
        let status = self.sends(code, data);
        assert_eq!(status & 2, 0, "code {code}, data {data:X?}: status {status:02X}");
    }

    fn refuses(&mut self, code: u8, data: &[u8]) {
        let before = self.net.clone();
        let status = self.sends(code, data);
        assert_eq!(status & 2, 2, "code {code}, data {data:X?}: status {status:02X}");
        self.net[slot(0) + 5] = before[slot(0) + 5];
        assert_eq!(self.net, before, "a frame that is not executed leaves its cause and nothing else");
    }

    fn gains(&mut self, gains: Gains) {
        let mut data = Vec::new();
        for gain in [gains.kp, gains.kd, gains.ki, gains.il] {
            data.extend(gain.to_le_bytes());
        }
        data.extend([gains.ol, 0]);
        data.extend(gains.el.to_le_bytes());
        data.extend([1, 0, 1]);
        self.does(6, &data);
    }

    fn stop_here(&mut self, position: i32) {
        let mut data = vec![0x11];
        data.extend(position.to_le_bytes());
        self.does(7, &data);
    }

    fn loads(&mut self, control: u8, numbers: &[i32]) {
        let mut data = vec![control];
        for number in numbers {
            data.extend(number.to_le_bytes());
        }
        self.does(4, &data);
    }

    /// Hard Reset, which draws no reply.
    fn resets(&mut self) {
        let (mut room, mut written) = ([0; ROOM_LEN], 9);
        for byte in frame_bytes(0, 15, &[]) {
            self.calls.byte(&mut self.net, 0, byte, &mut room, &mut written);
        }
        assert_eq!(written, 0);
    }

    fn pwm(&mut self, value: i32) {
        let reverse = if value < 0 { 0x40 } else { 0 };
        self.does(4, &[0x88 | reverse, value.unsigned_abs() as u8]);
    }

    /// The output with its sign, and the enable line.
    fn drives(&self) -> (i32, bool) {
        let mut outputs = [0xEE; 8];
        assert_eq!(self.calls.outputs(&self.net, 0, &mut outputs), DONE);
        let [size, negative, enabled, rest @ ..] = outputs;
        assert!(negative <= 1 && enabled <= 1 && rest == [0; 5], "{outputs:X?}");
        assert!(size > 0 || negative == 0, "no sign without a size");
        (if negative == 1 { -i32::from(size) } else { i32::from(size) }, enabled == 1)
    }

    fn output(&self) -> i32 {
        self.drives().0
    }

    fn enabled(&self) -> bool {
        self.drives().1
    }

    /// The motor is found so many counts short of its setpoint 0, at power 1; gives the output.
    fn error(&mut self, error: i32) -> i32 {
        self.measures(-error, 1);
        self.tick();
        self.output()
    }

    /// A tick with the motor at 0; gives what is driven.
    fn at_power(&mut self, power: u8) -> (i32, bool) {
        self.measures(0, power);
        self.tick();
        self.drives()
    }

    fn number(&self, at: usize) -> i32 {
        let at = slot(0) + at;
        i32::from_le_bytes(self.net[at..at + 4].try_into().unwrap())
    }

    /// The speeds of so many ticks, the motor standing still.
    fn speeds(&mut self, ticks: usize) -> Vec<i32> {
        let mut speeds = Vec::new();
        for _ in 0..ticks {
            self.tick();
            speeds.push(self.number(at::SPEED));
        }
        speeds
    }
}

// ---------------------------------------------------------------- power-up

#[test]
fn power_up_drives_nothing() {
    let servo = Servo::at_power_up(&Library);
    assert_eq!(servo.drives(), (0, false));
    let mut expected = [0; SLOT_LEN];
    (expected[2], expected[at::SM], expected[at::ERROR]) = (0xFF, 1, 1);
    assert_eq!(servo.net[slot(0)..slot(1)], expected);
}

// ---------------------------------------------------------------- the filter

#[test]
fn division_is_toward_zero() {
    let mut servo = Servo::ready(Gains { kp: 1, ..NO_GAINS });
    servo.stop_here(0);
    let expected = [(-255, 0), (-256, -1), (-257, -1), (-511, -1), (-512, -2), (255, 0), (256, 1), (511, 1), (512, 2)];
    for (u, output) in expected {
        assert_eq!(servo.error(u), output, "u = {u}");
    }
    servo.gains(Gains { kp: 100, ..NO_GAINS });
    assert_eq!((servo.error(10), servo.error(-10)), (3, -3));
}

#[test]
fn derivative_adds_to_the_drive() {
    let mut servo = Servo::ready(Gains { kd: 256, ..NO_GAINS });
    servo.stop_here(0);
    let errors = [10, 10, 6, -6, -6, 0, 0];
    let outputs = errors.map(|error| servo.error(error));
    assert_eq!(outputs, [10, 0, -4, -12, 0, 6, 0]);
    servo.error(20);
    servo.stop_here(0);
    assert_eq!(servo.error(20), 20, "a hold forgets the previous error");
}

#[test]
fn integral_is_held_to_its_limit() {
    let mut servo = Servo::ready(Gains { ki: 256, il: 25, ..NO_GAINS });
    servo.stop_here(0);
    let outputs = [10, 10, 10, 10, -10, -10, -10, -10, -10, -10].map(|error| servo.error(error));
    assert_eq!(outputs, [10, 20, 25, 25, 15, 5, -5, -15, -25, -25]);
    servo.gains(Gains { ki: 256, il: 8, ..NO_GAINS });
    assert_eq!((servo.output(), servo.number(at::INTEGRAL)), (-25, -25), "a smaller limit waits for the tick");
    assert_eq!(servo.error(0), -8);
    servo.stop_here(0);
    assert_eq!((servo.output(), servo.number(at::INTEGRAL)), (-8, 0), "a hold forgets the integral");
    assert_eq!(servo.error(0), 0);
}

#[test]
fn all_three_gains_together() {
    let mut servo = Servo::ready(Gains { kp: 300, kd: 1000, ki: 70, il: 200, ..NO_GAINS });
    servo.stop_here(0);
    // u = 300 e + 1000 (e - previous) + 70 integral
    let steps = [
        (7, 2100 + 7000 + 490),
        (5, 1500 - 2000 + 840),
        (-4, -1200 - 9000 + 560),
        (-4, -1200 + 280),
        (9, 2700 + 13_000 + 910),
    ];
    for (error, u) in steps {
        assert_eq!(servo.error(error), u / 256, "error {error}");
    }
}

#[test]
fn output_is_held_to_its_limit() {
    let mut servo = Servo::ready(Gains { kp: 256, ol: 100, ..NO_GAINS });
    servo.stop_here(0);
    let outputs = [99, 100, 101, 16_383, -99, -100, -101, -16_383].map(|error| servo.error(error));
    assert_eq!(outputs, [99, 100, 100, 100, -99, -100, -100, -100]);
    servo.gains(Gains { kp: 256, ol: 30, ..NO_GAINS });
    assert_eq!(servo.output(), -100, "a smaller limit waits for the tick");
    assert_eq!(servo.error(-16_383), -30);
    servo.gains(Gains { kp: 256, ol: 0, ..NO_GAINS });
    assert_eq!(servo.error(16_383), 0);
    servo.gains(Gains { kp: 32_767, ol: 255, ..NO_GAINS });
    assert_eq!((servo.error(16_383), servo.error(-16_383)), (255, -255));
}

#[test]
fn u_is_larger_than_32_bits() {
    for sign in [1, -1] {
        let full = Gains { kp: 32_767, kd: 32_767, ki: 32_767, il: 32_767, ol: 255, el: 16_383 };
        // the integral grows only while nothing is cut
        let mut servo = Servo::ready(Gains { il: 32_767, ..NO_GAINS });
        servo.stop_here(0);
        for _ in 0..3 {
            servo.error(sign * 16_383);
        }
        assert_eq!(servo.number(at::INTEGRAL), sign * 32_767);
        servo.gains(full);
        // 32,767 (-16,383 - 32,766 + 16,384) = -1,073,938,425
        assert_eq!(servo.error(-sign * 16_383), -sign * 255);
        // 32,767 (16,383 + 32,766 + 32,767) = 2,684,141,572: in 32 bits it would have the other sign
        assert_eq!(servo.error(sign * 16_383), sign * 255);
        assert_eq!(servo.number(at::INTEGRAL), sign * 32_767);
    }
}

#[test]
fn filter_sees_the_new_setpoint_and_the_new_position() {
    let mut servo = Servo::ready(Gains { kp: 256, ..NO_GAINS });
    servo.loads(0xB6, &[5 * ONE, 2 * ONE]);
    assert_eq!(servo.output(), 0);
    servo.tick();
    assert_eq!(servo.output(), 2, "the first tick moves");
    servo.refused_tick();
    assert_eq!(servo.output(), 2, "a refused tick is none");
    servo.measures(10, 1);
    servo.tick();
    assert_eq!(servo.output(), -4, "setpoint 6, position 10");
}

#[test]
fn set_gain_takes_all_or_nothing() {
    let mut servo = Servo::ready(NO_GAINS);
    let good = [0xFF, 0x7F, 0xFF, 0x7F, 0xFF, 0x7F, 0xFF, 0x7F, 255, 255, 0xFF, 0x3F, 1, 0, 255];
    for (at, bad) in [(1, 0x80), (3, 0x80), (5, 0xFF), (7, 0x80), (11, 0x40), (11, 0x80), (12, 0), (12, 2), (13, 1)] {
        let mut data = good;
        data[at] = bad;
        servo.refuses(6, &data);
    }
    servo.refuses(6, &good[..14]);
    servo.does(6, &good);
    servo.stop_here(1);
    servo.tick();
    assert_eq!(servo.output(), 255, "32,767 (1 + 1 + 1) / 256 is 383");
}

// ---------------------------------------------------------------- cut ticks

/// The rule before version 1.7.0: a cut tick kept its new integral.
const BEFORE: &Model = &Model { slip: Slip::CutWindsUp };

const CUT_BIT: u8 = 4;

impl Servo {
    /// Status bit 2, which is the record's byte.
    fn is_cut(&mut self) -> bool {
        let status = self.sends(14, &[]);
        assert_eq!(status & 0xE0, 0, "bits 5 to 7: status {status:02X}");
        assert_eq!(self.net[slot(0) + at::CUT], u8::from(status & CUT_BIT != 0), "status {status:02X}");
        status & CUT_BIT != 0
    }

    /// A tick so many counts short of the setpoint 0; gives output and integral, and whether it was cut.
    fn follows(&mut self, error: i32) -> (i32, i32, bool) {
        (self.error(error), self.number(at::INTEGRAL), self.is_cut())
    }

    /// Holding 0, its last filter tick cut: 50 to put out, 10 of them in its limit.
    fn cut() -> Servo {
        let mut servo = Servo::ready(Gains { kp: 256, ki: 256, il: 100, ol: 10, ..NO_GAINS });
        servo.stop_here(0);
        assert_eq!(servo.follows(25), (10, 0, true));
        servo
    }
}

#[test]
fn integral_wound_up_against_the_limit_and_released() {
    // with Kp and Ki 256 the output is e + i, i being the integral with e, held to 50; then what it was before
    #[rustfmt::skip]
    let ticks = [
        // error, output, integral, cut, output and integral before
        (20, (40, 20, false), (40, 20)),   // 20 + 20
        (20, (50, 20, true), (50, 40)),    // 20 + 40 is cut: the integral goes back to 20
        (20, (50, 20, true), (50, 60)),    // again 20 + 40; before 20 + 60
        (20, (50, 20, true), (50, 80)),
        (20, (50, 20, true), (50, 100)),
        (20, (50, 20, true), (50, 120)),
        (10, (40, 30, false), (50, 130)),  // released: 10 + 30; before 10 + 130
        (0, (30, 30, false), (50, 130)),   // 0 + 30, there
        (-10, (10, 20, false), (50, 120)), // -10 + 20 brakes; before -10 + 120 pushes on with all it has
        (-20, (-20, 0, false), (50, 100)), // -20 + 0; before -20 + 100
        (-20, (-40, -20, false), (50, 80)),
        (-20, (-50, -20, true), (40, 60)), // -20 - 40 is cut, on the other side
        (0, (-20, -20, false), (50, 60)),  // 0 - 20
        (20, (20, 0, false), (50, 80)),
    ];
    let gains = Gains { kp: 256, ki: 256, il: 1000, ol: 50, ..NO_GAINS };
    for sign in [1, -1] {
        let mut servo = Servo::ready(gains);
        let mut before = Servo::ready_by(BEFORE, gains);
        servo.stop_here(0);
        before.stop_here(0);
        for (tick, (error, (output, integral, cut), (wound, integral_before))) in ticks.into_iter().enumerate() {
            let error = sign * error;
            assert_eq!(servo.follows(error), (sign * output, sign * integral, cut), "tick {tick}, sign {sign}");
            let (wound_up, summed, _) = before.follows(error);
            assert_eq!((wound_up, summed), (sign * wound, sign * integral_before), "tick {tick} before, sign {sign}");
        }
    }
}

#[test]
fn limit_itself_is_no_cut_nor_is_a_lost_fraction() {
    // with Kp 1 u is the error, and the output u / 256 toward zero
    let ends = [
        (2, 511, 1, false),
        (2, 512, 2, false),
        (2, 767, 2, false),
        (2, 768, 2, true),
        (0, 0, 0, false),
        (0, 1, 0, false),
        (0, 255, 0, false),
        (0, 256, 0, true),
        (0, 16_383, 0, true),
        (1, 511, 1, false),
        (1, 512, 1, true),
    ];
    for (ol, error, output, cut) in ends {
        for sign in [1, -1] {
            let mut servo = Servo::ready(Gains { kp: 1, il: 32_767, ol, ..NO_GAINS });
            servo.stop_here(0);
            let integral = if cut { 0 } else { sign * error };
            assert_eq!(servo.follows(sign * error), (sign * output, integral, cut), "OL {ol}, u {}", sign * error);
        }
    }
    // 255 is all that an output can be: 65,535 / 256 is 255, 65,536 / 256 is 256
    for (error, cut) in [(13_107, false), (-13_107, false), (13_108, true), (-13_108, true)] {
        let mut servo = Servo::ready(Gains { kp: 5, ..NO_GAINS });
        servo.stop_here(0);
        assert_eq!(servo.follows(error), (255 * error.signum(), 0, cut), "5 x {error}");
    }
}

#[test]
fn integral_goes_back_whatever_the_signs_of_error_and_cut() {
    let mut servo = Servo::ready(Gains { ki: 256, il: 1000, ..NO_GAINS });
    servo.stop_here(0);
    assert_eq!(servo.follows(100), (100, 100, false));
    servo.gains(Gains { ki: 256, il: 1000, ol: 50, ..NO_GAINS });
    for _ in 0..20 {
        // 100 - 10 is still above 50: nothing is unwound
        assert_eq!(servo.follows(-10), (50, 100, true));
    }
    assert_eq!(servo.follows(-49), (50, 100, true), "51");
    assert_eq!(servo.follows(-50), (50, 50, false), "50");
    assert_eq!(servo.follows(-101), (-50, 50, true), "-51");
    assert_eq!(servo.follows(-100), (-50, -50, false), "-50");
}

#[test]
fn cut_tick_stores_its_error() {
    let mut servo = Servo::ready(Gains { kd: 256, ol: 10, ..NO_GAINS });
    servo.stop_here(0);
    assert_eq!(servo.follows(100), (10, 0, true));
    assert_eq!(servo.number(at::PREVIOUS_ERROR), 100);
    assert_eq!(servo.follows(105), (5, 0, false), "105 - 100");
    assert_eq!(servo.follows(80), (-10, 0, true), "80 - 105");
    assert_eq!(servo.follows(80), (0, 0, false));
}

#[test]
fn integral_left_beyond_a_lowered_limit() {
    for cut_ticks in [1, 2, 3, 50] {
        let mut servo = Servo::ready(Gains { ki: 256, il: 1000, ..NO_GAINS });
        servo.stop_here(0);
        assert_eq!(servo.follows(100), (100, 100, false));
        servo.gains(Gains { ki: 256, il: 10, ol: 0, ..NO_GAINS });
        for _ in 0..cut_ticks {
            // u is of 100 held to 10: 10 is cut to 0, and what stays is the former 100, not held to 10
            assert_eq!(servo.follows(0), (0, 100, true));
        }
        servo.gains(Gains { ki: 256, il: 10, ..NO_GAINS });
        // 100 - 5 held to 10; had the former number been held, 10 - 5
        assert_eq!(servo.follows(-5), (10, 10, false), "after {cut_ticks}");
        assert_eq!(servo.follows(-5), (5, 5, false));
    }
    // a cut by Kp alone does the same, on the other side too
    let mut servo = Servo::ready(Gains { ki: 256, il: 1000, ..NO_GAINS });
    servo.stop_here(0);
    assert_eq!(servo.follows(100), (100, 100, false));
    servo.gains(Gains { kp: 256, il: 0, ol: 20, ..NO_GAINS });
    assert_eq!(servo.follows(-30), (-20, 100, true));
    assert_eq!(servo.follows(-20), (-20, 0, false), "-20 is no cut: 80 held to 0");
}

#[test]
fn any_number_of_cut_ticks_leaves_the_integral() {
    for cut_ticks in [1, 2, 3, 7, 64, 255, 256, 1000] {
        let mut servo = Servo::ready(Gains { ki: 256, il: 32_767, ..NO_GAINS });
        servo.stop_here(0);
        assert_eq!(servo.follows(7), (7, 7, false));
        servo.gains(Gains { kp: 32_767, il: 32_767, ol: 127, ..NO_GAINS });
        for tick in 0..cut_ticks {
            // 32,767 is 127 in 256ths and 255 of 256 more: one count is no cut, two are, either way
            let error = (2 + tick % 900) * if tick % 3 == 1 { -1 } else { 1 };
            assert_eq!(servo.follows(error), (127 * error.signum(), 7, true), "tick {tick}");
        }
        servo.gains(Gains { ki: 256, il: 32_767, ..NO_GAINS });
        assert_eq!(servo.follows(-3), (4, 4, false), "after {cut_ticks}");
    }
}

#[test]
fn high_power_cuts_as_any_other() {
    let mut servo = Servo::ready(Gains { kp: 256, ki: 256, il: 1000, ol: 50, ..NO_GAINS });
    servo.stop_here(0);
    // error, power, then output, integral and status
    #[rustfmt::skip]
    let ticks = [
        (40, 2, 0, 0, 0x05),    // 40 + 40 is cut, and nothing is put out
        (20, 2, 0, 20, 0x01),   // 20 + 20
        (-60, 2, 0, 20, 0x05),  // -60 - 40 is cut
        (25, 2, 0, 20, 0x05),   // 25 + 45 is cut
        (15, 2, 0, 35, 0x01),   // 15 + 35 is 50
        (15, 1, 50, 35, 0x0D),  // 15 + 50 is cut
        (15, 2, 0, 35, 0x05),
        (0, 1, 35, 35, 0x09),
    ];
    for (tick, (error, power, output, integral, status)) in ticks.into_iter().enumerate() {
        servo.measures(-error, power);
        servo.tick();
        assert_eq!((servo.output(), servo.number(at::INTEGRAL)), (output, integral), "tick {tick}");
        assert_eq!(servo.sends(14, &[]), status, "tick {tick}");
    }
}

#[test]
fn going_off_clears_the_cut_bit() {
    let power_low = |servo: &mut Servo| {
        servo.measures(0, 0);
        servo.tick();
    };
    let trip = |servo: &mut Servo| {
        servo.measures(16_384, 1);
        servo.tick();
    };
    let ways: [(&str, &dyn Fn(&mut Servo)); 5] = [
        ("power 0", &power_low),
        ("trip", &trip),
        ("Stop 02", &|servo| servo.does(7, &[0x02])),
        ("Stop 03", &|servo| servo.does(7, &[0x03])),
        ("Hard Reset", &Servo::resets),
    ];
    for (name, off) in ways {
        let mut servo = Servo::cut();
        off(&mut servo);
        assert_eq!((servo.net[slot(0) + at::MODE], servo.output()), (0, 0), "{name}");
        assert!(!servo.is_cut(), "{name}");
        for power in [1, 2, 0, 1] {
            servo.measures(-25, power);
            servo.tick();
            assert!(!servo.is_cut(), "{name}: off at power {power}");
        }
        servo.does(7, &[0x09]);
        assert!(!servo.is_cut(), "{name}: a smooth stop of a servo that is off");
    }
}

#[test]
fn pwm_has_no_cut_bit() {
    for now in [false, true] {
        let mut servo = Servo::cut();
        if now {
            servo.does(4, &[0x88, 200]);
        } else {
            servo.does(4, &[0x08, 200]);
            assert!(servo.is_cut(), "a load that waits leaves it");
            servo.does(5, &[]);
        }
        assert!(!servo.is_cut(), "a PWM start clears it");
        for power in [1, 2, 1] {
            servo.measures(0, power);
            servo.tick();
            assert_eq!(servo.output(), if power == 1 { 10 } else { 0 }, "200 held to 10");
            assert!(!servo.is_cut(), "held, but by no filter tick");
        }
        if now {
            servo.does(7, &[0x09]);
            assert!(!servo.is_cut(), "a smooth stop of PWM is off");
        } else {
            servo.stop_here(0);
            assert!(!servo.is_cut(), "holding has it from its own first tick on");
            assert_eq!(servo.follows(25), (10, 0, true));
        }
    }
}

#[test]
fn cut_bit_stays_between_ticks() {
    let loads = |control: u8, numbers: &'static [i32]| move |servo: &mut Servo| servo.loads(control, numbers);
    let gains = |servo: &mut Servo| servo.gains(Gains { kp: 256, ..NO_GAINS });
    let waiting_start = |servo: &mut Servo| {
        servo.loads(0x36, &[ONE, ONE]);
        servo.does(5, &[]);
    };
    let ways: [(&str, &dyn Fn(&mut Servo)); 13] = [
        ("abrupt stop", &|servo| servo.does(7, &[0x05])),
        ("Stop Here", &|servo| servo.stop_here(3)),
        ("smooth stop", &|servo| servo.does(7, &[0x09])),
        ("Stop with bit 0 alone", &|servo| servo.does(7, &[0x01])),
        ("Reset Position", &|servo| servo.does(0, &[])),
        ("Set Gain", &gains),
        ("Clear Bits", &|servo| servo.does(11, &[])),
        ("a load that waits", &loads(0x36, &[ONE, ONE])),
        ("a start in velocity mode", &loads(0xB6, &[ONE, ONE])),
        ("Start in velocity mode", &waiting_start),
        ("a start of a trapezoid", &loads(0x97, &[5, ONE, ONE])),
        ("Define Status", &|servo| servo.does(2, &[0])),
        ("a refused tick", &Servo::refused_tick),
    ];
    for (name, way) in ways {
        let mut servo = Servo::cut();
        way(&mut servo);
        assert!(servo.is_cut(), "{name}");
        // then the next filter tick tells: the motor at the setpoint, with nothing remembered that would drive it
        servo.gains(NO_GAINS);
        assert!(servo.is_cut(), "{name}, then Set Gain");
        servo.measures(0, 1);
        servo.tick();
        assert!(!servo.is_cut(), "{name}, then a tick that is not cut");
    }
}

#[test]
fn abrupt_stop_blanks_the_memory_and_leaves_the_cut_bit() {
    let gains = Gains { kp: 256, ki: 256, il: 100, ol: 60, ..NO_GAINS };
    for stop in [&[0x05][..], &[0x11, 0, 0, 0, 0]] {
        let mut servo = Servo::ready(gains);
        servo.stop_here(0);
        assert_eq!(servo.follows(25), (50, 25, false));
        assert_eq!(servo.follows(25), (60, 25, true), "25 + 50");
        servo.does(7, stop);
        assert_eq!([at::INTEGRAL, at::PREVIOUS_ERROR].map(|at| servo.number(at)), [0, 0]);
        assert!(servo.is_cut());
        assert_eq!(servo.output(), 60, "as the output stays until the tick");
        servo.tick();
        assert!(!servo.is_cut());
    }
}

#[test]
fn frame_that_is_not_executed_leaves_the_cut_bit() {
    let mut servo = Servo::cut();
    servo.refuses(5, &[]);
    servo.refuses(7, &[0x06]);
    servo.refuses(6, &[0; 14]);
    servo.refuses(4, &[0x88]);
    assert!(servo.is_cut());
}

// ---------------------------------------------------------------- trips

#[test]
fn error_above_its_limit_turns_off() {
    let gains = Gains { kp: 256, ki: 256, il: 100, el: 20, ..NO_GAINS };
    for sign in [1, -1] {
        let mut servo = Servo::ready(gains);
        servo.stop_here(0);
        assert_eq!(servo.error(sign * 20), sign * 40, "EL itself is no trip");
        servo.does(7, &[0x01]);
        assert!(servo.enabled());
        assert_eq!(servo.error(sign * 21), 0);
        assert_eq!(servo.sends(14, &[]), 0x19);
        assert!(servo.enabled(), "a trip leaves the amplifier");
        assert_eq!([at::INTEGRAL, at::PREVIOUS_ERROR, at::SPEED].map(|at| servo.number(at)), [0; 3]);
        servo.refuses(7, &[0x05]);
        servo.refuses(7, &[0x11, 0, 0, 0, 0]);
        servo.does(11, &[]);
        assert_eq!(servo.error(sign * 5), 0, "Clear Bits alone drives nothing");
    }
    // as far away as can be: 2^31 has no positive 32-bit number
    let mut servo = Servo::ready(gains);
    servo.stop_here(i32::MIN);
    servo.tick();
    assert_eq!((servo.output(), servo.sends(14, &[])), (0, 0x19));
}

// ---------------------------------------------------------------- PWM

#[test]
fn pwm_is_put_out_from_the_tick_on_and_held_to_its_limit() {
    let mut servo = Servo::ready(Gains { ol: 100, el: 0, ..NO_GAINS });
    for (value, output) in [(40, 40), (-40, -40), (100, 100), (101, 100), (255, 100), (-255, -100), (0, 0), (-1, -1)] {
        servo.pwm(value);
        assert_eq!(servo.output(), 0, "PWM {value}: 0 until the tick");
        servo.measures(12_345, 1);
        servo.tick();
        assert_eq!(servo.output(), output, "PWM {value}");
    }
    servo.pwm(200);
    servo.tick();
    servo.gains(Gains { ol: 255, ..NO_GAINS });
    assert_eq!(servo.output(), 100);
    servo.tick();
    assert_eq!(servo.output(), 200, "the limit of the tick counts");
    servo.does(4, &[0x08, 7]);
    servo.tick();
    assert_eq!(servo.output(), 200, "a load that waits changes nothing");
    servo.does(5, &[]);
    assert_eq!(servo.output(), 0);
    servo.tick();
    assert_eq!(servo.output(), 7);
    servo.refuses(5, &[]);
}

#[test]
fn pwm_and_servo_follow_each_other() {
    let mut servo = Servo::ready(Gains { kp: 256, ..NO_GAINS });
    servo.stop_here(9);
    servo.tick();
    assert_eq!((servo.output(), servo.number(at::PREVIOUS_ERROR)), (9, 9));
    servo.pwm(50);
    assert_eq!((servo.output(), servo.number(at::PREVIOUS_ERROR)), (0, 0), "a PWM start is 0 at once");
    servo.tick();
    assert_eq!(servo.output(), 50);
    servo.does(7, &[0x05]);
    assert_eq!(servo.output(), 50, "a hold leaves the output until the tick");
    servo.tick();
    assert_eq!(servo.output(), 0);
    servo.pwm(-60);
    servo.tick();
    servo.loads(0xB6, &[3 * ONE, 3 * ONE]);
    assert_eq!(servo.output(), -60, "so does a start of a profile");
    servo.tick();
    assert_eq!(servo.output(), 3);
    servo.pwm(-60);
    servo.tick();
    servo.stop_here(-8);
    assert_eq!(servo.output(), -60);
    servo.tick();
    assert_eq!(servo.output(), -8);
}

// ---------------------------------------------------------------- going off

#[test]
fn going_off_is_seen_at_once() {
    for off in [0x02, 0x03] {
        let mut servo = Servo::ready(Gains { kp: 256, ..NO_GAINS });
        servo.stop_here(9);
        servo.tick();
        assert_eq!(servo.drives(), (9, true));
        servo.does(7, &[off]);
        assert_eq!(servo.drives(), (0, off == 0x03));
        servo.tick();
        assert_eq!(servo.output(), 0);
    }
    let mut servo = Servo::ready(NO_GAINS);
    servo.pwm(50);
    servo.tick();
    servo.does(7, &[0x01]);
    assert_eq!(servo.drives(), (50, true), "the amplifier bit alone stops nothing");
    servo.does(7, &[0x09]);
    assert_eq!(servo.drives(), (0, true), "a smooth stop of PWM is off");
    servo.tick();
    assert_eq!(servo.output(), 0);
}

#[test]
fn smooth_stop_keeps_driving() {
    let mut servo = Servo::ready(Gains { kp: 256, ..NO_GAINS });
    servo.loads(0xB6, &[4 * ONE, 2 * ONE]);
    servo.tick();
    servo.tick();
    assert_eq!(servo.output(), 6);
    servo.loads(0x34, &[ONE]);
    servo.does(7, &[0x09]);
    assert_eq!(servo.output(), 6);
    servo.tick();
    assert_eq!(servo.output(), 8, "slows down by 2, not by the 1 of the later load");
    servo.tick();
    assert_eq!(servo.output(), 8);
    servo.refuses(5, &[]);
}

#[test]
fn hard_reset_drives_nothing() {
    let mut servo = Servo::ready(NO_GAINS);
    servo.pwm(50);
    servo.does(7, &[0x01]);
    servo.tick();
    assert_eq!(servo.drives(), (50, true));
    servo.resets();
    assert_eq!(servo.drives(), (0, false));
    servo.tick();
    assert_eq!(servo.drives(), (0, false));
}

// ---------------------------------------------------------------- power

#[test]
fn high_power_drives_nothing_and_all_else_runs() {
    let mut servo = Servo::ready(Gains { kp: 256, ki: 256, il: 1000, ..NO_GAINS });
    servo.stop_here(0);
    assert_eq!(servo.error(10), 20);
    for integral in [20, 30, 40] {
        servo.measures(-10, 2);
        servo.tick();
        assert_eq!((servo.output(), servo.number(at::INTEGRAL)), (0, integral));
        assert_eq!(servo.number(at::PREVIOUS_ERROR), 10);
    }
    assert_eq!(servo.error(10), 60, "the integral has run on");
    servo.pwm(33);
    servo.measures(0, 2);
    servo.tick();
    assert_eq!(servo.output(), 0);
    servo.measures(0, 1);
    servo.tick();
    assert_eq!(servo.output(), 33, "PWM comes back");
    // and the profile with its trip
    servo.gains(Gains { el: 5, ..NO_GAINS });
    servo.loads(0xB6, &[3 * ONE, 3 * ONE]);
    servo.measures(0, 2);
    servo.tick();
    assert_eq!((servo.number(at::SPEED), servo.sends(14, &[])), (3 * ONE, 0x01));
    servo.tick();
    assert_eq!((servo.number(at::SPEED), servo.sends(14, &[])), (0, 0x11), "6 is above 5");
}

#[test]
fn low_power_turns_off_and_leaves_the_amplifier_bit() {
    let mut servo = Servo::ready(Gains { kp: 256, ..NO_GAINS });
    servo.does(7, &[0x01]);
    servo.pwm(50);
    servo.tick();
    assert_eq!(servo.drives(), (50, true));
    servo.refused_tick();
    assert_eq!(servo.drives(), (50, true), "a refused tick is none");
    servo.measures(0, 0);
    servo.tick();
    assert_eq!(servo.drives(), (0, false));
    assert_eq!(servo.net[slot(0) + at::AMPLIFIER], 1);
    servo.refused_tick();
    assert_eq!(servo.drives(), (0, false), "the latched power counts");
    servo.measures(0, 1);
    servo.tick();
    assert_eq!(servo.drives(), (0, true), "the line comes back with power, PWM does not");
    assert_eq!(servo.sends(14, &[]), 0x09, "and no error bit");
}

#[test]
fn enable_line_is_amplifier_bit_and_good_power() {
    let mut servo = Servo::at_power_up(&Library);
    servo.does(7, &[0x01]);
    assert!(!servo.enabled(), "the bit may be set without power");
    servo.measures(0, 2);
    servo.tick();
    assert!(!servo.enabled(), "power too high");
    servo.measures(0, 1);
    servo.tick();
    assert!(servo.enabled(), "the bit has stayed");
    servo.does(7, &[0x00]);
    assert!(!servo.enabled(), "Stop without bit 0 clears it");
    servo.does(7, &[0x03]);
    assert!(servo.enabled(), "every Stop sets or clears it");
    servo.refuses(7, &[0x04]);
    assert!(servo.enabled(), "but not one that is not executed");
    servo.does(7, &[0x00]);
    servo.measures(0, 0);
    servo.tick();
    servo.does(7, &[0x01]);
    assert!(!servo.enabled(), "set at power 0");
    servo.tick();
    assert!(!servo.enabled(), "still without power");
    servo.measures(0, 1);
    servo.tick();
    assert!(servo.enabled(), "the bit has outlasted a tick at power 0");
}

// ---------------------------------------------------------------- dips

/// What a servo does when a dip comes.
#[derive(Clone, Copy, Debug, PartialEq)]
enum Doing {
    Nothing,
    Pwm,
    Holding,
    Velocity,
    Trapezoid,
}

const ALL_DOINGS: [Doing; 5] = [Doing::Nothing, Doing::Pwm, Doing::Holding, Doing::Velocity, Doing::Trapezoid];

impl Doing {
    fn begun(self, amplifier: bool) -> Servo {
        let mut servo = Servo::ready(Gains { kp: 256, ..NO_GAINS });
        match self {
            Doing::Nothing => {}
            Doing::Pwm => servo.pwm(-50),
            Doing::Holding => servo.stop_here(9),
            Doing::Velocity => servo.loads(0xB6, &[4 * ONE, 4 * ONE]),
            Doing::Trapezoid => servo.loads(0x97, &[1000, 4 * ONE, 4 * ONE]),
        }
        servo.does(7, &[u8::from(amplifier)]);
        servo
    }

    /// What it drives after so many ticks, the motor at 0 throughout.
    fn output(self, ticks: usize) -> i32 {
        match self {
            Doing::Nothing => 0,
            Doing::Pwm => -50,
            Doing::Holding => 9,
            Doing::Velocity | Doing::Trapezoid => 4 * ticks as i32,
        }
    }
}

/// Powers between one tick at power 1 and the next.
const DIPS: [&[u8]; 9] = [&[0], &[2], &[0, 0], &[2, 2], &[0, 2], &[2, 0], &[0, 2, 0], &[0; 40], &[2; 40]];

/// Every dip, whatever the servo does, with the amplifier bit set and clear.
fn for_every_dip(check: impl Fn(Doing, bool, &[u8])) {
    for doing in ALL_DOINGS {
        for amplifier in [false, true] {
            for dip in DIPS {
                check(doing, amplifier, dip);
            }
        }
    }
}

#[test]
fn enable_line_after_a_dip_is_what_it_was_before() {
    for_every_dip(|doing, amplifier, dip| {
        let told = format!("{doing:?}, amplifier {amplifier}, dip {dip:?}");
        let mut servo = doing.begun(amplifier);
        assert_eq!(servo.at_power(1), (doing.output(1), amplifier), "{told}: before");
        for power in dip {
            assert_eq!(servo.at_power(*power), (0, false), "{told}: in it");
        }
        for _ in 0..5 {
            assert_eq!(servo.at_power(1).1, amplifier, "{told}: after");
        }
    });
}

#[test]
fn dip_with_low_power_turns_off_until_a_start() {
    for_every_dip(|doing, amplifier, dip| {
        let told = format!("{doing:?}, amplifier {amplifier}, dip {dip:?}");
        let mut servo = doing.begun(amplifier);
        servo.at_power(1);
        for power in dip {
            servo.at_power(*power);
        }
        let runs = !dip.contains(&0) && doing != Doing::Nothing;
        for ticks in 2..7 {
            let output = if runs { doing.output(ticks + dip.len()) } else { 0 };
            assert_eq!(servo.at_power(1).0, output, "{told}");
            let moves = runs && matches!(doing, Doing::Velocity | Doing::Trapezoid);
            assert_eq!(servo.number(at::SPEED), if moves { 4 * ONE } else { 0 }, "{told}");
            assert_eq!(servo.net[slot(0) + at::MODE] != 0, runs, "{told}");
        }
        if !runs {
            assert_eq!(servo.sends(14, &[]), 0x09, "{told}");
            servo.refuses(5, &[]);
            servo.loads(0xB6, &[3 * ONE, 3 * ONE]);
            assert_eq!(servo.at_power(1), (3, amplifier), "{told}: started anew");
            assert_eq!(servo.at_power(1), (6, amplifier), "{told}: started anew");
        }
    });
}

#[test]
fn waiting_load_survives_a_dip_and_start_starts_it() {
    let pwm = &[0x08, 70][..];
    let velocity = &[0x36, 0, 0, 2, 0, 0, 0, 2, 0][..];
    let trapezoid = &[0x17, 50, 0, 0, 0, 0, 0, 2, 0, 0, 0, 2, 0][..];
    for dip in DIPS {
        for (load, output) in [(pwm, 70), (velocity, 2), (trapezoid, 2)] {
            let mut servo = Servo::ready(Gains { kp: 256, ..NO_GAINS });
            servo.does(7, &[0x01]);
            servo.does(4, load);
            for power in dip {
                assert_eq!(servo.at_power(*power), (0, false), "{dip:?}");
            }
            for _ in 0..3 {
                assert_eq!(servo.at_power(1), (0, true), "{dip:?}: a load that waits moves nothing");
            }
            servo.does(5, &[]);
            assert_eq!(servo.at_power(1), (output, true), "{dip:?}");
            servo.refuses(5, &[]);
        }
    }
}

/// The enable line after a dip to this power in which a frame came.
fn enabled_after(amplifier: bool, power: u8, frame: impl Fn(&mut Servo)) -> bool {
    let mut servo = Doing::Pwm.begun(amplifier);
    assert_eq!(servo.at_power(1), (-50, amplifier));
    servo.at_power(power);
    frame(&mut servo);
    assert!(!servo.enabled(), "no power, no line");
    assert_eq!(servo.at_power(power), (0, false));
    let (_, enabled) = servo.at_power(1);
    assert_eq!(servo.at_power(1).1, enabled, "and stays so");
    enabled
}

#[test]
fn last_stop_in_a_dip_counts_after_it() {
    for power in [0, 2] {
        for amplifier in [false, true] {
            for control in [0x00, 0x01, 0x02, 0x03, 0x08, 0x09] {
                let enabled = enabled_after(amplifier, power, |servo| servo.does(7, &[control]));
                assert_eq!(enabled, control & 1 == 1, "power {power}, Stop {control:02X}");
            }
            for control in [0x04, 0x05] {
                let enabled = enabled_after(amplifier, power, |servo| servo.refuses(7, &[control]));
                assert_eq!(enabled, amplifier, "power {power}, Stop {control:02X}, which is not executed");
            }
            let enabled = enabled_after(amplifier, power, |servo| {
                servo.does(7, &[0x01]);
                servo.does(7, &[0x00]);
            });
            assert!(!enabled, "power {power}: on, then off");
        }
    }
}

#[test]
fn hard_reset_in_a_dip_clears_the_amplifier_bit() {
    for power in [0, 2] {
        for amplifier in [false, true] {
            assert!(!enabled_after(amplifier, power, Servo::resets), "power {power}");
        }
    }
}

// ---------------------------------------------------------------- profiles

/// At rest so many 65,536ths short of whole counts, by frames alone.
fn short_of_one_count(short: i32) -> Servo {
    let mut servo = Servo::ready(NO_GAINS);
    servo.loads(0xB6, &[ONE - short, ONE - short]);
    servo.tick();
    servo.does(7, &[0x09]);
    servo.tick();
    assert_eq!((servo.number(at::SETPOINT), servo.number(at::SPEED)), (ONE - short, 0));
    servo
}

#[test]
fn bench_sheet_trapezoids() {
    for (d, speeds) in [(12, [2, 4, 4, 2, 0]), (11, [2, 4, 3, 2, 0])] {
        let mut servo = short_of_one_count(d);
        servo.loads(0x97, &[1, 5, 2]);
        assert_eq!(servo.speeds(5), speeds);
        assert_eq!((servo.number(at::SETPOINT), servo.sends(14, &[])), (ONE, 0x09));

        // mirrored: back to 0 from d above it
        let mut servo = short_of_one_count(ONE - d);
        servo.loads(0x97, &[0, 5, 2]);
        assert_eq!(servo.speeds(5), speeds.map(|speed: i32| -speed));
        assert_eq!((servo.number(at::SETPOINT), servo.sends(14, &[])), (0, 0x09));
    }
}

#[test]
fn trapezoid_is_done_when_there_and_at_rest() {
    let mut servo = short_of_one_count(12);
    servo.loads(0x97, &[1, 5, 2]);
    for (speed, done) in [(2, false), (4, false), (4, false), (2, false), (0, true), (0, true)] {
        assert_eq!(servo.speeds(1), [speed]);
        assert_eq!(servo.sends(14, &[]) & 1 == 1, done, "at speed {speed}");
    }
}

#[test]
fn bench_sheet_velocity() {
    let mut servo = Servo::ready(NO_GAINS);
    servo.loads(0xB6, &[5, 2]);
    assert_eq!(servo.speeds(4), [2, 4, 5, 5]);
    servo.does(4, &[0xF0]);
    assert_eq!(servo.speeds(6), [3, 1, -1, -3, -5, -5]);
    servo.does(7, &[0x09]);
    assert_eq!(servo.speeds(4), [-3, -1, 0, 0]);
}

#[test]
fn bench_sheet_load_count() {
    let mut servo = Servo::ready(NO_GAINS);
    let data = [0x97, 4, 0, 0, 0, 5, 0, 0, 0, 2, 0, 0, 0];
    servo.refuses(4, &data[..9]);
    servo.refuses(5, &[]);
    servo.does(4, &data);
    assert_eq!(servo.speeds(2), [2, 4]);
}

#[test]
fn highest_speeds() {
    const MOST: i32 = 83_886_080;
    // 1,280 counts in one tick, then at rest; and half of that in two
    let mut servo = Servo::ready(NO_GAINS);
    servo.loads(0x97, &[1280, MOST, MOST]);
    assert_eq!(servo.speeds(2), [MOST, 0]);
    servo.loads(0x95, &[0, MOST / 2]);
    assert_eq!(servo.speeds(3), [-MOST / 2, -MOST / 2, 0]);
    servo.loads(0xB6, &[MOST, MOST]);
    assert_eq!(servo.speeds(2), [MOST, MOST]);
    servo.does(4, &[0xF0]);
    assert_eq!(servo.speeds(3), [0, -MOST, -MOST]);
}

#[test]
fn running_profile_keeps_its_numbers() {
    let mut servo = short_of_one_count(30);
    servo.loads(0x97, &[1, 4, 2]);
    assert_eq!(servo.speeds(2), [2, 4]);
    servo.loads(0x16, &[9, 7]);
    // 24 left: five times 4, then 3 for 3 + 1 are the 4 that are left
    assert_eq!(servo.speeds(8), [4, 4, 4, 4, 4, 3, 1, 0]);
    assert_eq!(servo.number(at::SETPOINT), ONE);
    servo.refuses(5, &[]);
}

#[test]
fn reset_position_shifts_what_the_filter_sees() {
    let mut servo = Servo::ready(Gains { kp: 256, ..NO_GAINS });
    servo.measures(1000, 1);
    servo.tick();
    servo.stop_here(1007);
    servo.tick();
    assert_eq!(servo.output(), 7);
    servo.does(0, &[]);
    assert_eq!(servo.output(), 7);
    servo.tick();
    assert_eq!(servo.output(), 7, "nothing jumps");
    servo.loads(0x97, &[9, ONE, ONE]);
    assert_eq!(servo.speeds(3), [ONE, ONE, 0]);
    assert_eq!(servo.output(), 9);
}

#[test]
fn abrupt_stop_holds_the_position() {
    let mut servo = Servo::ready(Gains { kp: 256, ..NO_GAINS });
    servo.loads(0xB6, &[20 * ONE, 20 * ONE]);
    servo.measures(12, 1);
    servo.tick();
    assert_eq!(servo.output(), 8, "setpoint 20, position 12");
    servo.does(7, &[0x05]);
    assert_eq!(servo.output(), 8);
    servo.tick();
    assert_eq!(servo.output(), 0, "at 12, where the motor is");
}

#[test]
fn setpoint_goes_round_at_both_ends() {
    for (raw, sign) in [(i32::MAX - 1, 1), (i32::MIN + 1, -1)] {
        let mut servo = Servo::ready(Gains { kp: 256, ..NO_GAINS });
        servo.measures(raw, 1);
        servo.tick();
        let goal = raw.wrapping_add(sign * 6);
        servo.loads(0x97, &[goal, 2 * ONE, 2 * ONE]);
        assert_eq!(servo.speeds(4), [2 * sign * ONE, 2 * sign * ONE, 2 * sign * ONE, 0]);
        assert_eq!(servo.output(), sign * 6, "the motor has stayed behind");
        assert_eq!(servo.sends(14, &[]), 0x09);
    }
    // the setpoint's own end, which is 2^32 counts: -1 to 1
    let mut servo = Servo::ready(Gains { kp: 256, ..NO_GAINS });
    servo.measures(-1, 1);
    servo.tick();
    servo.loads(0x97, &[1, ONE, ONE]);
    let outputs = [1, 2, 3].map(|_| {
        servo.tick();
        servo.output()
    });
    assert_eq!(outputs, [1, 2, 2]);
}
