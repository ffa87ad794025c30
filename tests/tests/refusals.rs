//! Every refusal through the C calls: its number, and that nothing lent is changed. Beside each stands the nearest
//! input that is taken, so that a library which refuses too much fails here as well. Those of the line monitor's text
//! are in monitor_text.rs.

use doljurven_tests::calls::*;
use doljurven_tests::capi::Library;
use doljurven_tests::model::frame_bytes;
use doljurven_tests::record::{
    at, slot, stepper_at, CAUSE, COUNT, FILL, ITEMS, MARK, MOTION, SLOT_LEN, STEPPER_LEN, TWELVE_BITS,
};

const JUNK: u8 = 0xE7;

/// A network of so many I/O modules in the middle of a frame, with something in every slot.
fn network(modules: usize) -> Vec<u8> {
    chain(&vec![2; modules])
}

fn chain(types: &[u8]) -> Vec<u8> {
    let mut net = vec![JUNK; NET_LEN];
    assert_eq!(Library.setup(&mut net, types), DONE);
    let latched = list_of(types, servo_sample(0x1234_5678, 1, 0x5A, 0), io_sample(0xA5C, [1, 2, 3], 0x1234_5678));
    assert_eq!(tick_call(&mut net, &latched), DONE);
    set_steppers_going(&mut net, types);
    for byte in &frame_bytes(0, 1, &[1, 0xFF])[..4] {
        assert_eq!(byte_call(&mut net, 0, *byte, ROOM_LEN), DONE);
    }
    net
}

/// Every step-motor module moves, so that no tick leaves it as it is.
fn set_steppers_going(net: &mut [u8], types: &[u8]) {
    for place in (0..types.len()).filter(|place| types[*place] == 3) {
        let own = &mut net[slot(place)..slot(place + 1)];
        own[stepper_at::MINIMUM] = 5;
        own[MOTION].copy_from_slice(&[7, 0, 9, 200, 3, 0]);
    }
}

/// A byte call that holds the library to what a refusal leaves: record, room, and 0 written.
fn byte_call(net: &mut [u8], mark: u32, byte: u8, room_len: usize) -> u32 {
    let before = net.to_vec();
    let mut room = vec![JUNK; room_len];
    let mut written = 77;
    let number = Library.byte(net, mark, byte, &mut room, &mut written);
    if number > DAMAGED {
        assert_eq!(net, before, "refusal {number} changed the record");
        assert!(room.iter().all(|byte| *byte == JUNK), "refusal {number} wrote into the room");
        assert_eq!(written, 0, "refusal {number} reported a length");
    }
    number
}

/// A buffer call of which the two lists stay what they are; a refusal leaves record and room, too, and 0 written.
fn bytes_call(net: &mut [u8], bytes: &[u8], marks: &[u8], room_len: usize) -> u32 {
    let before = net.to_vec();
    let (lent, lent_marks) = (bytes.to_vec(), marks.to_vec());
    let mut room = vec![JUNK; room_len];
    let mut written = 77;
    let number = Library.bytes(net, &lent, &lent_marks, &mut room, &mut written);
    assert_eq!((&lent[..], &lent_marks[..]), (bytes, marks), "number {number}: a list changed");
    assert!(number == DONE || number > DAMAGED, "number {number}");
    if number != DONE {
        assert_eq!(net, before, "refusal {number} changed the record");
        assert!(room.iter().all(|byte| *byte == JUNK), "refusal {number} wrote into the room");
        assert_eq!(written, 0, "refusal {number} reported a length");
    }
    number
}

/// The same with as many marks of 0 as bytes, and room enough.
fn unmarked_call(net: &mut [u8], bytes: &[u8]) -> u32 {
    bytes_call(net, bytes, &vec![0; bytes.len()], BUFFER_ROOM_LEN)
}

/// A tick's list for a chain of these types, where all of one type measure the same; no stop input is 1.
fn list_of(types: &[u8], servo: Sample, io: Sample) -> Vec<u8> {
    let sample = |module_type: &u8| match module_type {
        0 => servo,
        2 => io,
        _ => stepper_sample(0),
    };
    types.iter().flat_map(sample).collect()
}

/// A list by which everything that is latched changes, and what moves goes on.
fn list(types: &[u8]) -> Vec<u8> {
    list_of(types, servo_sample(0x0BAD_CAFE, 2, 0x77, 3), io_sample(0x3A5, [9, 8, 7], 0x0BAD_CAFE))
}

/// A tick whose list stays what it is, and whose record does if it is refused.
fn tick_call(net: &mut [u8], list: &[u8]) -> u32 {
    let before = net.to_vec();
    let lent = list.to_vec();
    let number = Library.tick(net, &lent);
    assert_eq!(lent, list, "number {number}: the list changed");
    if number != DONE {
        assert_eq!(net, before, "refusal {number} changed the record");
    }
    number
}

/// The list that a record asks for, all modules without power and inputs.
fn nothing_measured(net: &[u8]) -> Vec<u8> {
    let chain = net.get(COUNT).copied().unwrap_or(1);
    let type_at = |place| net.get(slot(place)).copied().unwrap_or(0);
    (0..chain.into()).flat_map(|place| no_sample(type_at(place))).collect()
}

fn outputs_call(net: &[u8], place: u32) -> u32 {
    let mut outputs = [JUNK; 8];
    let number = Library.outputs(net, place, &mut outputs);
    assert_eq!(number != DONE, outputs == [JUNK; 8], "number {number}");
    number
}

/// A refusal leaves the byte alone; else it is the record's own.
fn cause_call(net: &[u8], place: u32) -> u32 {
    let mut cause = JUNK;
    let number = Library.cause(net, place, &mut cause);
    let left = if number == DONE { net[slot(place as usize) + CAUSE] } else { JUNK };
    assert_eq!(cause, left, "number {number}");
    number
}

fn setup_call(net: &mut [u8], types: &[u8]) -> u32 {
    let before = net.to_vec();
    let number = Library.setup(net, types);
    if number != DONE {
        assert_eq!(net, before, "a refused setup changed the record");
    }
    number
}

fn write_call(address: u32, code: u32, data_len: usize, room_len: usize) -> u32 {
    let data = vec![5; data_len];
    let mut room = vec![JUNK; room_len];
    let mut written = 77;
    let number = Library.write_frame(address, code, &data, &mut room, &mut written);
    if number == DONE {
        assert_eq!(written, data_len + 4);
        assert_eq!(room[..written], frame_bytes(address as u8, code as u8, &data));
        assert!(room[written..].iter().all(|byte| *byte == JUNK), "the writer wrote behind its frame");
    } else {
        assert_eq!(written, 0, "refusal {number} reported a length");
        assert!(room.iter().all(|byte| *byte == JUNK), "refusal {number} wrote into the room");
    }
    number
}

fn read_call(module_type: u32, items: u8, reply: &[u8]) -> u32 {
    let mut reading = [JUNK; 33];
    let number = Library.read_status(module_type, items, reply, &mut reading);
    if number != DONE {
        assert_eq!(reading, [0; 33], "refusal {number} left a reading");
    }
    number
}

/// Every call that looks at the record, with arguments that are refused for nothing else.
fn every_call_says(net: &[u8], number: u32) {
    assert_eq!(byte_call(&mut net.to_vec(), 0, 0, ROOM_LEN), number);
    assert_eq!(unmarked_call(&mut net.to_vec(), &[0]), number);
    assert_eq!(unmarked_call(&mut net.to_vec(), &[]), number);
    assert_eq!(tick_call(&mut net.to_vec(), &nothing_measured(net)), number);
    assert_eq!(outputs_call(net, 0), number);
    assert_eq!(cause_call(net, 0), number);
}

// ---------------------------------------------------------------- 16

#[test]
fn record_of_another_length() {
    let net = network(3);
    every_call_says(&net, DONE);
    for length in [0, 1, COUNT, NET_LEN - SLOT_LEN, NET_LEN - 1, NET_LEN + 1, NET_LEN + SLOT_LEN] {
        let mut other = net.clone();
        other.resize(length, 0);
        every_call_says(&other, BAD_RECORD);
        assert_eq!(setup_call(&mut other, &[2]), BAD_RECORD, "setup looks at the length too");
    }
}

#[test]
fn record_with_a_chain_of_none_or_too_many() {
    let net = network(32);
    for count in [0, 33, 128, 255] {
        let mut bad = net.clone();
        bad[COUNT] = count;
        every_call_says(&bad, BAD_RECORD);
    }
    for count in [1, 2, 31, 32] {
        let mut good = net.clone();
        good[COUNT] = count;
        every_call_says(&good, DONE);
    }
}

#[test]
fn record_idle_with_bytes_stored() {
    let mut idle = network(2);
    idle[..=MARK].fill(0);
    every_call_says(&idle, DONE);
    for at in (0..=MARK).filter(|at| *at != FILL) {
        for value in [1, 0x80, 0xFF] {
            let mut bad = idle.clone();
            bad[at] = value;
            every_call_says(&bad, BAD_RECORD);
        }
    }
}

#[test]
fn record_with_more_of_a_frame_than_its_command_asks() {
    for count in 0..16u8 {
        let mut net = network(2);
        net[16] = count << 4 | 14;
        for fill in 1..=3 + count {
            net[FILL] = fill;
            let number = byte_call(&mut net.clone(), 0, 0, ROOM_LEN);
            let ends = fill == 3 + count;
            assert_eq!(number == DONE, !ends, "fill {fill} of count {count}");
            assert!(number <= DAMAGED);
            assert_eq!(unmarked_call(&mut net.clone(), &[0; BUFFER_LEN]), DONE);
            assert_eq!(tick_call(&mut net.clone(), &nothing_measured(&net)), DONE);
        }
        for fill in [4 + count, 19, 20, 128, 255] {
            net[FILL] = fill;
            every_call_says(&net, BAD_RECORD);
        }
    }
}

#[test]
fn record_with_another_mark() {
    let mut net = network(2);
    for (mark, number) in [(0, DONE), (1, DONE), (2, BAD_RECORD), (3, BAD_RECORD), (255, BAD_RECORD)] {
        net[MARK] = mark;
        every_call_says(&net, number);
    }
}

/// Spoils one byte of the first, a middle and the last slot, and of one beyond the chain, which nobody looks at.
fn in_every_slot(at: usize, good: &[u8], bad: &[u8]) {
    let net = network(9);
    for place in [0, 4, 8] {
        for value in good {
            let mut net = net.clone();
            net[slot(place) + at] = *value;
            every_call_says(&net, DONE);
        }
        for value in bad {
            let mut net = net.clone();
            net[slot(place) + at] = *value;
            every_call_says(&net, BAD_RECORD);
        }
    }
    for value in bad {
        let mut net = net.clone();
        net[slot(9) + at] = *value;
        every_call_says(&net, DONE);
    }
}

#[test]
fn record_with_a_slot_of_unknown_type() {
    in_every_slot(0, &[2], &[1, 4, 5, 128, 130, 131, 255]);
}

#[test]
fn record_with_a_leader_flag_that_is_no_flag() {
    in_every_slot(3, &[0, 1], &[2, 128, 255]);
}

#[test]
fn record_with_an_addr_out_that_is_no_flag() {
    in_every_slot(4, &[0, 1], &[2, 128, 255]);
}

#[test]
fn record_with_an_unknown_cause() {
    in_every_slot(CAUSE, &[0, 1, 2, 3, 4, 5], &[6, 128, 255]);
}

#[test]
fn record_with_more_than_twelve_bits() {
    for at in TWELVE_BITS {
        in_every_slot(at + 1, &[0, 15], &[16, 128, 255]);
    }
}

#[test]
fn record_bytes_that_may_be_anything() {
    let net = network(2);
    let bounded: Vec<usize> = [0, 3, 4, 5].into_iter().chain(TWELVE_BITS.map(|at| at + 1)).collect();
    for at in (0..SLOT_LEN).filter(|at| !bounded.contains(at)) {
        let mut net = net.clone();
        net[slot(1) + at] = 0xFF;
        every_call_says(&net, DONE);
    }
}

// ---------------------------------------------------------------- 16 by a servo's slot

const MOST: i32 = 83_886_080;
const OFF: u8 = 0;
const PWM: u8 = 1;
const HOLDING: u8 = 2;
const VELOCITY: u8 = 3;
const TRAPEZOID: u8 = 4;
const RUNNING: [u8; 4] = [PWM, HOLDING, VELOCITY, TRAPEZOID];
/// Modes in which the filter runs.
const SERVO_ON: [u8; 3] = [HOLDING, VELOCITY, TRAPEZOID];

/// A slot that is put into a network.
#[derive(Clone)]
struct Slot([u8; SLOT_LEN]);

impl Slot {
    /// A servo's, at rest in some mode at power 1.
    fn new(mode: u8) -> Slot {
        let mut slot = Slot([0; SLOT_LEN]);
        slot.0[2] = 0xFF;
        slot.0[at::POWER] = 1;
        slot.0[at::MODE] = mode;
        slot.four(at::ACCELERATION, 1).four(at::RUNNING_ACCELERATION, 2).four(at::TOP, 10)
    }

    fn one(mut self, at: usize, value: u8) -> Slot {
        self.0[at] = value;
        self
    }

    fn two(mut self, at: usize, value: u16) -> Slot {
        self.0[at..at + 2].copy_from_slice(&value.to_le_bytes());
        self
    }

    fn four(mut self, at: usize, value: i32) -> Slot {
        self.0[at..at + 4].copy_from_slice(&value.to_le_bytes());
        self
    }

    /// So many 65,536ths from the goal, fewer than a count.
    fn left(mut self, d: i32) -> Slot {
        let setpoint = 0x1234_5678_0000 - i64::from(d);
        self.0[at::SETPOINT..at::SETPOINT + 6].copy_from_slice(&setpoint.to_le_bytes()[..6]);
        self.four(at::GOAL, 0x1234_5678)
    }

    fn judged(&self, number: u32, words: &str) {
        let types = [self.0[0], 2, self.0[0]];
        let net = chain(&types);
        for place in [0, 2] {
            let mut net = net.clone();
            net[slot(place)..slot(place + 1)].copy_from_slice(&self.0);
            let told = tick_call(&mut net.clone(), &list(&types));
            assert_eq!(told, number, "{words}: {:02X?}", self.0);
            every_call_says(&net, number);
        }
        let mut beyond = net;
        beyond[slot(3)..slot(4)].copy_from_slice(&self.0);
        every_call_says(&beyond, DONE);
    }

    fn passes(&self, words: &str) {
        self.judged(DONE, words);
    }

    fn breaks(&self, words: &str) {
        self.judged(BAD_RECORD, words);
    }
}

#[test]
fn servo_record_with_bytes_out_of_range() {
    let off = Slot::new(OFF);
    for (at, _) in at::FLAGS {
        // off asks the cut bit to be clear, all other modes the error bit
        let slot = Slot::new(if at == at::CUT { HOLDING } else { OFF });
        for (value, number) in [(0, DONE), (1, DONE), (2, BAD_RECORD), (128, BAD_RECORD), (255, BAD_RECORD)] {
            slot.clone().one(at, value).judged(number, &format!("flag at {at} is {value}"));
        }
    }
    for (at, most) in [(CAUSE, 5), (at::POWER, 2), (at::INPUTS, 3), (at::WAY, 2), (at::MODE, 4)] {
        for value in 0..=most {
            off.clone().one(at, value).passes(&format!("byte at {at} is {value}"));
        }
        for value in [most + 1, 128, 255] {
            off.clone().one(at, value).breaks(&format!("byte at {at} is {value}"));
        }
    }
}

/// What Set Homing takes: limit 1, limit 2 or both, with no stop or with one of off, abrupt and smooth.
const HOMING_BYTES: [u8; 12] = [0x01, 0x02, 0x03, 0x05, 0x06, 0x07, 0x11, 0x12, 0x13, 0x21, 0x22, 0x23];

#[test]
fn servo_record_with_another_homing_byte() {
    for mode in [OFF, PWM, HOLDING, VELOCITY, TRAPEZOID] {
        for byte in 0..=255 {
            let number = if byte == 0 || HOMING_BYTES.contains(&byte) { DONE } else { BAD_RECORD };
            Slot::new(mode).one(at::HOMING, byte).judged(number, &format!("homing byte {byte:02X}"));
        }
    }
}

#[test]
fn servo_record_with_other_limit_inputs() {
    for inputs in 0..=255 {
        let number = if inputs <= 3 { DONE } else { BAD_RECORD };
        Slot::new(OFF).one(at::INPUTS, inputs).judged(number, &format!("inputs {inputs}"));
        let homing = Slot::new(VELOCITY).one(at::INPUTS, inputs).one(at::HOMING, 3);
        homing.judged(number, &format!("inputs {inputs}, homing"));
    }
}

#[test]
fn servo_record_with_numbers_out_of_range() {
    let off = Slot::new(OFF);
    for (at, most) in [(at::KP, 32_767), (at::KD, 32_767), (at::KI, 32_767), (at::IL, 32_767), (at::EL, 16_383)] {
        off.clone().two(at, most).passes(&format!("gain at {at}"));
        for value in [most + 1, 65_535] {
            off.clone().two(at, value).breaks(&format!("gain at {at} is {value}"));
        }
    }
    for at in [at::VELOCITY, at::ACCELERATION, at::RUNNING_ACCELERATION, at::TOP] {
        off.clone().four(at, MOST).passes(&format!("number at {at}"));
        off.clone().four(at, 0).passes(&format!("number at {at} is 0"));
        for value in [MOST + 1, -1, i32::MIN, i32::MAX] {
            off.clone().four(at, value).breaks(&format!("number at {at} is {value}"));
        }
    }
    off.clone().one(at::ACCELERATION_LOADED, 1).passes("acceleration 1 loaded");
    off.clone().one(at::ACCELERATION_LOADED, 1).four(at::ACCELERATION, 0).breaks("acceleration 0 loaded");
    off.clone().one(at::VELOCITY_LOADED, 1).passes("velocity 0 loaded");

    let holding = Slot::new(HOLDING);
    let velocity = Slot::new(VELOCITY);
    let signed = [
        (&velocity, at::SPEED, MOST),
        (&velocity, at::GOAL_SPEED, MOST),
        (&off, at::GOAL_SPEED, MOST),
        (&holding, at::INTEGRAL, 32_767),
        (&holding, at::PREVIOUS_ERROR, 16_383),
        (&holding, at::OUTPUT, 255),
        (&Slot::new(PWM), at::PWM, 255),
        (&Slot::new(PWM), at::OUTPUT, 255),
    ];
    for (slot, at, most) in signed {
        for value in [-most, -1, 0, 1, most] {
            slot.clone().four(at, value).passes(&format!("number at {at} is {value}"));
        }
        for value in [-most - 1, most + 1, i32::MIN, i32::MAX] {
            slot.clone().four(at, value).breaks(&format!("number at {at} is {value}"));
        }
    }
}

#[test]
fn servo_record_against_its_mode() {
    // what each mode has to have 0
    let zero: [(u8, &[usize]); 5] = [
        (OFF, &[at::SPEED, at::OUTPUT, at::INTEGRAL, at::PREVIOUS_ERROR, at::PWM]),
        (PWM, &[at::SPEED, at::INTEGRAL, at::PREVIOUS_ERROR]),
        (HOLDING, &[at::SPEED, at::PWM]),
        (VELOCITY, &[at::PWM]),
        (TRAPEZOID, &[at::PWM]),
    ];
    let signed = [at::SPEED, at::OUTPUT, at::INTEGRAL, at::PREVIOUS_ERROR, at::PWM];
    for (mode, zero) in zero {
        for at in signed {
            for value in [-1, 1] {
                let number = if zero.contains(&at) { BAD_RECORD } else { DONE };
                Slot::new(mode).four(at, value).judged(number, &format!("number at {at} is {value}"));
            }
        }
    }
    for mode in RUNNING {
        let slot = Slot::new(mode);
        slot.passes("at rest");
        slot.clone().one(at::ERROR, 1).breaks("runs with the error bit set");
        slot.clone().one(at::POWER, 0).breaks("runs at power 0");
        let high = slot.clone().one(at::POWER, 2);
        high.passes("runs at power 2");
        slot.clone().four(at::OUTPUT, 1).passes("drives at power 1");
        high.clone().four(at::OUTPUT, 1).breaks("drives at power 2");
        high.clone().four(at::OUTPUT, -1).breaks("drives at power 2");
        slot.clone().one(at::AMPLIFIER, 1).passes("amplifier bit");
    }
    for power in [0, 2] {
        Slot::new(OFF).one(at::POWER, power).one(at::ERROR, 1).one(at::AMPLIFIER, 1).passes("off");
        Slot::new(OFF).one(at::POWER, power).four(at::OUTPUT, 1).breaks("off, but drives");
    }
}

#[test]
fn servo_record_with_the_cut_bit_where_no_filter_runs() {
    for mode in [OFF, PWM, HOLDING, VELOCITY, TRAPEZOID] {
        for power in if mode == OFF { vec![0, 1, 2] } else { vec![1, 2] } {
            let slot = Slot::new(mode).one(at::POWER, power);
            let number = if SERVO_ON.contains(&mode) { DONE } else { BAD_RECORD };
            slot.clone().one(at::CUT, 0).passes(&format!("not cut, power {power}"));
            slot.clone().one(at::CUT, 1).judged(number, &format!("cut, power {power}"));
            for value in [2, 3, 128, 255] {
                slot.clone().one(at::CUT, value).breaks(&format!("cut bit {value}, power {power}"));
            }
        }
    }
    Slot::new(PWM).four(at::PWM, 255).four(at::OUTPUT, 10).one(at::OL, 10).passes("PWM held to OL");
    Slot::new(PWM).four(at::PWM, 255).four(at::OUTPUT, 10).one(at::OL, 10).one(at::CUT, 1).breaks("no filter tick");
}

#[test]
fn servo_record_with_an_integral_beyond_il() {
    for mode in SERVO_ON {
        for cut in [0, 1] {
            for il in [0, 10, 32_766, 32_767] {
                let slot = Slot::new(mode).two(at::IL, il).one(at::CUT, cut);
                for integral in [i32::from(il), i32::from(il) + 1, 32_767] {
                    let number = if integral <= 32_767 { DONE } else { BAD_RECORD };
                    let told = format!("integral {integral}, IL {il}, cut bit {cut}");
                    slot.clone().four(at::INTEGRAL, integral).judged(number, &told);
                    slot.clone().four(at::INTEGRAL, -integral).judged(number, &format!("{told}, below 0"));
                }
            }
        }
    }
}

#[test]
fn servo_record_with_a_trapezoid_that_cannot_stop() {
    let slot = Slot::new(TRAPEZOID);
    slot.clone().four(at::RUNNING_ACCELERATION, 0).breaks("no acceleration");
    slot.clone().four(at::RUNNING_ACCELERATION, 1).passes("the least acceleration");
    slot.clone().four(at::TOP, 0).passes("at rest below any top speed");
    for sign in [1, -1] {
        let moving = slot.clone().left(sign * 6).four(at::SPEED, sign * 6);
        // 4 + 2 left to go after slowing down by 2
        moving.passes("stops within 6");
        moving.clone().left(sign * 5).breaks("cannot stop within 5");
        moving.clone().four(at::SPEED, sign * 7).breaks("too fast for 6: 5 + 3 + 1");
        moving.clone().four(at::SPEED, -sign * 6).breaks("backward");
        moving.clone().four(at::SPEED, -sign).breaks("backward by 1");
        moving.clone().four(at::TOP, 6).passes("at its top speed");
        moving.clone().four(at::TOP, 5).breaks("above its top speed");
        moving.clone().four(at::RUNNING_ACCELERATION, 1).breaks("5 + 4 + 3 + 2 + 1 are more than 6");
        moving.clone().left(sign * 15).four(at::RUNNING_ACCELERATION, 1).passes("5 + 4 + 3 + 2 + 1");
        let there = slot.clone().left(0).four(at::SPEED, sign * 2);
        there.passes("there, with a tick to slow down");
        there.clone().four(at::SPEED, sign * 3).breaks("there, but too fast");
    }
}

#[test]
fn servo_record_with_a_goal_half_the_range_away() {
    const HALF: u32 = 1 << 31;
    let fractions = |whole| [0, 1, 65_535].map(|fraction| (whole, fraction));
    for (whole, fraction) in [0, 1, HALF - 1, HALF, HALF + 1, u32::MAX].into_iter().flat_map(fractions) {
        let to = |mode, away| {
            let slot = Slot::new(mode).two(at::SETPOINT, fraction).four(at::SETPOINT + 2, whole as i32);
            slot.four(at::GOAL, whole.wrapping_add(away) as i32)
        };
        let from = format!("from {whole} and {fraction} of 65,536");
        for mode in [OFF, PWM, HOLDING, VELOCITY] {
            to(mode, HALF).passes(&format!("no trapezoid, {from}"));
        }
        for speed in [0, 1, 2] {
            to(TRAPEZOID, HALF - 1).four(at::SPEED, speed).passes(&format!("forth by a count less, {from}"));
            to(TRAPEZOID, HALF).four(at::SPEED, speed).breaks(&format!("half the range at {speed}, {from}"));
            to(TRAPEZOID, HALF).four(at::SPEED, -speed).breaks(&format!("half the range at -{speed}, {from}"));
            to(TRAPEZOID, HALF + 1).four(at::SPEED, -speed).passes(&format!("back by a count less, {from}"));
        }
    }
}

#[test]
fn servo_record_bytes_that_may_be_anything() {
    let bytes = [1, 2, 6, 7, at::OL, at::CL, at::SM, at::LOAD_PWM, at::AD];
    let fours = [at::RAW, at::OFFSET, at::LAST_POSITION, at::LOAD_POSITION, at::GOAL, at::SETPOINT, at::HOME];
    let all = fours.into_iter().flat_map(|at| at..at + 4).chain(bytes).chain([at::SETPOINT + 4, at::SETPOINT + 5]);
    for at in all.chain(at::HOMING + 1..SLOT_LEN) {
        Slot::new(OFF).one(at, 0xFF).passes(&format!("byte at {at}"));
    }
}

// ---------------------------------------------------------------- 16 by a stepper's slot

/// A stepper's slot at rest, its minimum 5.
fn stepper_at_rest() -> Slot {
    let mut slot = Slot([0; SLOT_LEN]);
    (slot.0[0], slot.0[2], slot.0[stepper_at::MINIMUM]) = (3, 0xFF, 5);
    slot
}

/// The same in motion, not stopping: speed 7, forward, goal 9, T 4, of which 2 ticks have passed.
fn stepper_in_motion() -> Slot {
    let mut slot = stepper_at_rest();
    slot.0[MOTION].copy_from_slice(&[7, 0, 9, 4, 2, 0]);
    slot
}

/// A byte at every value: those within these bounds pass, and no others.
fn in_bounds(slot: &Slot, at: usize, good: std::ops::RangeInclusive<u8>) {
    for value in 0..=255 {
        let number = if good.contains(&value) { DONE } else { BAD_RECORD };
        slot.clone().one(at, value).judged(number, &format!("byte at {at} is {value}"));
    }
}

#[test]
fn stepper_record_with_bytes_out_of_range() {
    for slot in [stepper_at_rest(), stepper_in_motion()] {
        slot.passes("as it is");
        for at in [3, 4, stepper_at::AMPLIFIER, stepper_at::LOAD_WAITS, stepper_at::LOAD_BACKWARD] {
            in_bounds(&slot, at, 0..=1);
        }
        in_bounds(&slot, CAUSE, 0..=5);
        in_bounds(&slot, stepper_at::LOAD_SPEED, 0..=250);
        for items in 0..=255 {
            let number = if items & !0x21 == 0 { DONE } else { BAD_RECORD };
            slot.clone().one(ITEMS, items).judged(number, &format!("items {items:02X}"));
        }
    }
    in_bounds(&stepper_at_rest(), stepper_at::MINIMUM, 0..=250);
}

#[test]
fn stepper_record_at_rest_with_something_of_a_motion() {
    let rest = stepper_at_rest();
    for at in MOTION.filter(|at| *at != stepper_at::SPEED) {
        in_bounds(&rest, at, 0..=0);
        in_bounds(&rest.clone().one(stepper_at::MINIMUM, 0), at, 0..=0);
    }
    for value in 1..=255 {
        rest.clone().one(stepper_at::SPEED, value).breaks("a speed without goal and T");
    }
}

#[test]
fn stepper_record_in_a_motion_that_there_is_not() {
    for backward in [0, 1] {
        let moving = stepper_in_motion().one(stepper_at::BACKWARD, backward);
        in_bounds(&moving, stepper_at::SPEED, 5..=250);
        in_bounds(&moving, stepper_at::GOAL, 5..=250);
        in_bounds(&moving, stepper_at::MINIMUM, 1..=7);
        in_bounds(&moving, stepper_at::TIME, 3..=255);
        in_bounds(&moving, stepper_at::PASSED, 0..=3);
        moving.clone().one(stepper_at::PASSED, 0).one(stepper_at::TIME, 0).breaks("T 0");
        moving.clone().one(stepper_at::PASSED, 0).one(stepper_at::TIME, 1).passes("T 1");
        moving.clone().one(stepper_at::PASSED, 254).one(stepper_at::TIME, 255).passes("T 255");
        moving.clone().one(stepper_at::STOPPING, 1).breaks("stopping toward another goal");
        let stopping = moving.clone().one(stepper_at::STOPPING, 1).one(stepper_at::GOAL, 5);
        stopping.passes("stopping");
        in_bounds(&stopping, stepper_at::GOAL, 5..=5);
        in_bounds(&stopping, stepper_at::SPEED, 5..=250);
        in_bounds(&stopping, stepper_at::MINIMUM, 5..=5);
        in_bounds(&stopping, stepper_at::STOPPING, 0..=1);
    }
    in_bounds(&stepper_in_motion(), stepper_at::BACKWARD, 0..=1);
}

#[test]
fn stepper_record_bytes_that_may_be_anything() {
    let stored = stepper_at::STORED_POSITION..stepper_at::LOAD_WAITS;
    let position = stepper_at::POSITION..stepper_at::POSITION + 4;
    let all = [1, 2, 7, stepper_at::LOAD_TIME].into_iter().chain(stored).chain(position);
    for at in all.chain(STEPPER_LEN..SLOT_LEN) {
        for slot in [stepper_at_rest(), stepper_in_motion()] {
            slot.one(at, 0xFF).passes(&format!("byte at {at}"));
        }
    }
    // a load that does not wait is not looked at beyond its ranges
    let left = stepper_at_rest().one(stepper_at::LOAD_BACKWARD, 1).one(stepper_at::LOAD_SPEED, 250);
    left.one(stepper_at::LOAD_TIME, 255).passes("what a load has left");
}

#[test]
fn setup_does_not_mind_what_the_record_holds() {
    let mut clean = vec![0; NET_LEN];
    assert_eq!(setup_call(&mut clean, &[2, 2]), DONE);
    let mut dirty = vec![0xFF; NET_LEN];
    assert_eq!(setup_call(&mut dirty, &[2, 2]), DONE);
    assert_eq!(dirty, clean);
    every_call_says(&dirty, DONE);
}

// ---------------------------------------------------------------- 11, 12

/// Servo, I/O module, stepper.
const TYPES: [u8; 3] = [0, 2, 3];

#[test]
fn chain_of_none_or_too_many() {
    for length in [0, 33, 34, 255, 256, 257, 288] {
        assert_eq!(setup_call(&mut network(3), &vec![2; length]), BAD_CHAIN, "chain {length}");
    }
    for length in 1..=32 {
        let mut net = network(3);
        assert_eq!(setup_call(&mut net, &vec![2; length]), DONE, "chain {length}");
        assert_eq!(usize::from(net[COUNT]), length);
    }
}

#[test]
fn unknown_types() {
    for (at, length) in [(0, 1), (0, 32), (15, 32), (31, 32)] {
        for known in TYPES {
            let mut types = vec![known; length];
            for other in 0..=255 {
                types[at] = other;
                let number = if TYPES.contains(&other) { DONE } else { BAD_TYPE };
                assert_eq!(setup_call(&mut network(3), &types), number, "type {other} at {at} among {known}");
            }
        }
    }
}

// ---------------------------------------------------------------- 13, 14, 15

#[test]
fn place_beyond_the_chain() {
    for modules in [1, 3, 32] {
        let net = network(modules);
        let last = modules as u32 - 1;
        assert_eq!(outputs_call(&net, last), DONE);
        assert_eq!(cause_call(&net, last), DONE);
        for place in [last + 1, last + 2, 33, 255, 256, 1 << 16, u32::MAX - 1, u32::MAX] {
            assert_eq!(outputs_call(&net, place), BAD_PLACE, "place {place}");
            assert_eq!(cause_call(&net, place), BAD_PLACE, "place {place}");
        }
    }
}

#[test]
fn mark_other_than_none_or_one() {
    let mut net = network(1);
    for mark in [2, 3, 255, 256, 257, 1 << 16, u32::MAX] {
        assert_eq!(byte_call(&mut net, mark, 0xAA, ROOM_LEN), BAD_FIELD, "mark {mark}");
    }
    assert_eq!(byte_call(&mut net.clone(), 0, 0xAA, ROOM_LEN), DONE);
    assert_eq!(byte_call(&mut net, 1, 0xAA, ROOM_LEN), DONE);
}

#[test]
fn room_too_short_for_every_reply() {
    let mut net = network(1);
    for room_len in [0, 1, 2, REPLY_LEN, ROOM_LEN - 1] {
        assert_eq!(byte_call(&mut net, 0, 0x55, room_len), SHORT_ROOM, "room {room_len}");
    }
    assert_eq!(byte_call(&mut net.clone(), 0, 0x55, ROOM_LEN), DONE);
    assert_eq!(byte_call(&mut net, 0, 0x55, ROOM_LEN + 1), DONE);
}

// ---------------------------------------------------------------- 20, 14, 15 by a buffer

/// What ends the open frame of `network`, then frames to its end: whatever of it is taken, the record changes.
fn buffer() -> [u8; BUFFER_LEN] {
    let rest = &frame_bytes(0, 1, &[1, 0xFF])[4..];
    let frames = frame_bytes(0xFF, 2, &[0x5A]).repeat(BUFFER_LEN);
    let line: Vec<u8> = rest.iter().chain(&frames).copied().take(BUFFER_LEN).collect();
    line.try_into().expect("as long as a buffer")
}

#[test]
fn buffer_of_different_lists_or_too_long() {
    let net = network(3);
    // some of the long ones are good ones in their lowest byte or two
    let long = [2 * BUFFER_LEN, 255, 256, 257, 256 + BUFFER_LEN, 65_536, 65_536 + BUFFER_LEN];
    let lengths: Vec<usize> = (0..=BUFFER_LEN + 2).chain(long).collect();
    let line: Vec<u8> = buffer().into_iter().cycle().take(65_536 + BUFFER_LEN).collect();
    let marks = vec![0; line.len()];
    for bytes_len in lengths.iter().copied() {
        for marks_len in lengths.iter().copied() {
            let number = if bytes_len == marks_len && bytes_len <= BUFFER_LEN { DONE } else { BAD_LIST };
            let told = bytes_call(&mut net.clone(), &line[..bytes_len], &marks[..marks_len], BUFFER_ROOM_LEN);
            assert_eq!(told, number, "{bytes_len} bytes, {marks_len} marks");
        }
    }
}

#[test]
fn buffer_with_a_mark_other_than_none_or_one() {
    let net = network(3);
    let line = buffer();
    for len in [1, 2, 5, BUFFER_LEN] {
        for at in 0..len {
            let mut marks = vec![0; len];
            for mark in 0..=255 {
                marks[at] = mark;
                let number = if mark <= 1 { DONE } else { BAD_FIELD };
                let told = bytes_call(&mut net.clone(), &line[..len], &marks, BUFFER_ROOM_LEN);
                assert_eq!(told, number, "mark {mark} at {at} of {len}");
            }
        }
    }
    assert_eq!(bytes_call(&mut net.clone(), &line, &[1; BUFFER_LEN], BUFFER_ROOM_LEN), DONE);
    assert_eq!(bytes_call(&mut net.clone(), &line, &[255; BUFFER_LEN], BUFFER_ROOM_LEN), BAD_FIELD);
    // outside of frames, too
    let mut idle = net;
    idle[..=MARK].fill(0);
    assert_eq!(bytes_call(&mut idle, &[0x55], &[2], BUFFER_ROOM_LEN), BAD_FIELD);
}

#[test]
fn room_too_short_for_every_reply_to_a_buffer() {
    assert_eq!(BUFFER_ROOM_LEN, 9728);
    for modules in [1, 3, 32] {
        let net = network(modules);
        // nothing, no frame's end, one, and as many as there are
        for len in [0, 1, 2, BUFFER_LEN] {
            let (line, marks) = (&buffer()[..len], &[0; BUFFER_LEN][..len]);
            let fewer_frames = (0..BUFFER_FRAMES).map(|frames| frames * ROOM_LEN);
            for room_len in fewer_frames.chain([1, BUFFER_FRAMES * REPLY_LEN * modules - 1, BUFFER_ROOM_LEN - 1]) {
                let number = bytes_call(&mut net.clone(), line, marks, room_len);
                assert_eq!(number, SHORT_ROOM, "room {room_len} for {len} bytes, {modules} modules");
            }
            for room_len in [BUFFER_ROOM_LEN, BUFFER_ROOM_LEN + 1, 2 * BUFFER_ROOM_LEN] {
                assert_eq!(bytes_call(&mut net.clone(), line, marks, room_len), DONE, "room {room_len}");
            }
        }
    }
}

// ---------------------------------------------------------------- 20, 13, 14 by a tick's list

/// Chains of all types, so that each stands at an end and beside its like and the others.
const MIXED: [u8; 9] = [0, 0, 2, 2, 3, 3, 0, 3, 2];
const MIXED_OTHERWISE: [u8; 5] = [3, 2, 0, 2, 3];

/// Bytes of a sample: its type; a servo's power, which is a stepper's stop input and the lower byte of an I/O module's
/// inputs; their upper byte; a servo's limit inputs.
const TYPE: usize = 0;
const POWER: usize = 1;
const INPUTS_HIGH: usize = 2;
const LIMITS: usize = 7;

/// Types that a module of this one is not.
fn others(own: u8) -> impl Iterator<Item = u8> {
    TYPES.into_iter().filter(move |other| *other != own)
}

/// A list with one byte of one place changed.
fn with(list: &[u8], place: usize, at: usize, value: u8) -> Vec<u8> {
    let mut changed = list.to_vec();
    changed[SAMPLE_LEN * place + at] = value;
    changed
}

/// Lists whose sample at a place has a field out of range: each that its type has.
fn with_bad_fields(list: &[u8], types: &[u8], place: usize) -> Vec<Vec<u8>> {
    match types[place] {
        0 => vec![with(list, place, POWER, 3), with(list, place, LIMITS, 4)],
        2 => vec![with(list, place, INPUTS_HIGH, 0x10)],
        _ => vec![with(list, place, POWER, 2)],
    }
}

#[test]
fn list_of_another_length() {
    for types in [&[0][..], &[2], &[3], &[0, 2], &[3, 0], &MIXED, &[0; 32], &[2; 32], &[3; 32]] {
        let net = chain(types);
        let good = list(types);
        let right = good.len();
        assert_eq!(tick_call(&mut net.clone(), &good), DONE);
        let one_less = right - SAMPLE_LEN;
        let shorter = [0, 1, 9, one_less, one_less + 1, right - 2, right - 1];
        let longer = [right + 1, right + 9, right + SAMPLE_LEN, 2 * right, right + 256, right + 65_536];
        for length in shorter.into_iter().filter(|length| *length < right).chain(longer) {
            // what is there is good throughout
            let other: Vec<u8> = good.iter().copied().cycle().take(length).collect();
            assert_eq!(tick_call(&mut net.clone(), &other), BAD_LIST, "{length} bytes for {} places", types.len());
        }
    }
}

#[test]
fn list_with_a_sample_of_another_type() {
    let net = chain(&MIXED);
    let good = list(&MIXED);
    for (place, own) in MIXED.into_iter().enumerate() {
        for byte in 0..=255 {
            let number = if byte == own { DONE } else { BAD_PLACE };
            assert_eq!(tick_call(&mut net.clone(), &with(&good, place, TYPE, byte)), number, "type {byte} at {place}");
        }
        // all that belongs to the other type, too
        for other_type in others(own) {
            let mut other = good.clone();
            other[SAMPLE_LEN * place..SAMPLE_LEN * (place + 1)].copy_from_slice(&list(&[other_type]));
            assert_eq!(tick_call(&mut net.clone(), &other), BAD_PLACE, "a sample of type {other_type} at {place}");
        }
    }
    let mut reversed = MIXED;
    reversed.reverse();
    assert_eq!(tick_call(&mut net.clone(), &list(&reversed)), BAD_PLACE, "the last place first");
}

#[test]
fn list_with_a_field_out_of_range() {
    let net = chain(&MIXED);
    let good = list(&MIXED);
    for (place, own) in MIXED.into_iter().enumerate() {
        for byte in 0..=255 {
            let told = format!("byte {byte} at {place}");
            let lower = if own == 2 || byte <= if own == 0 { 2 } else { 1 } { DONE } else { BAD_FIELD };
            assert_eq!(tick_call(&mut net.clone(), &with(&good, place, POWER, byte)), lower, "{told}");
            let upper = if own != 2 || byte <= 15 { DONE } else { BAD_FIELD };
            assert_eq!(tick_call(&mut net.clone(), &with(&good, place, INPUTS_HIGH, byte)), upper, "{told}");
            let limits = if own != 0 || byte <= 3 { DONE } else { BAD_FIELD };
            assert_eq!(tick_call(&mut net.clone(), &with(&good, place, LIMITS, byte)), limits, "{told}");
        }
        for at in (INPUTS_HIGH + 1..SAMPLE_LEN).filter(|at| *at != LIMITS) {
            assert_eq!(tick_call(&mut net.clone(), &with(&good, place, at, 0xFF)), DONE, "byte {at} at {place}");
        }
    }
    for (inputs, number) in [(0, DONE), (4095, DONE), (4096, BAD_FIELD), (4097, BAD_FIELD), (65_535, BAD_FIELD)] {
        assert_eq!(tick_call(&mut network(1), &io_sample(inputs, [0; 3], 0)), number, "inputs {inputs}");
    }
}

#[test]
fn another_type_anywhere_comes_before_a_field_anywhere() {
    for types in [&MIXED[..], &MIXED_OTHERWISE] {
        let net = chain(types);
        let good = list(types);
        for field in 0..types.len() {
            for bad_field in with_bad_fields(&good, types, field) {
                assert_eq!(tick_call(&mut net.clone(), &bad_field), BAD_FIELD, "field at {field}");
                for (of_type, own) in types.iter().enumerate() {
                    for byte in others(*own).chain([7]) {
                        let both = with(&bad_field, of_type, TYPE, byte);
                        let told = format!("field at {field}, type {byte} at {of_type}");
                        assert_eq!(tick_call(&mut net.clone(), &both), BAD_PLACE, "{told}");
                    }
                }
            }
        }
    }
}

#[test]
fn bytes_of_a_list_that_nobody_looks_at() {
    for types in [&[0][..], &[3], &MIXED, &[0; 32], &[3; 32]] {
        let net = chain(types);
        let good = list(types);
        let mut expected = net.clone();
        assert_eq!(tick_call(&mut expected, &good), DONE);
        for place in (0..types.len()).filter(|place| types[*place] != 2) {
            for at in if types[place] == 0 { 8 } else { 2 }..SAMPLE_LEN {
                for byte in [1, 2, 0x80, 0xFF] {
                    let mut ticked = net.clone();
                    assert_eq!(tick_call(&mut ticked, &with(&good, place, at, byte)), DONE);
                    assert_eq!(ticked, expected, "byte {at} at {place} is {byte}");
                }
            }
        }
    }
}

#[test]
fn list_is_for_the_chain_alone() {
    // what lies behind a shorter chain in the record asks for no sample
    let mut net = chain(&[0; 32]);
    net[COUNT] = 3;
    assert_eq!(tick_call(&mut net.clone(), &list(&[0; 32])), BAD_LIST);
    let beyond = net[slot(3)..].to_vec();
    let three = [servo_sample(7, 2, 7, 0), servo_sample(8, 0, 8, 0), servo_sample(9, 1, 9, 0)].concat();
    assert_eq!(tick_call(&mut net, &three), DONE);
    assert_eq!(net[slot(3)..], beyond);
}

// ---------------------------------------------------------------- the host's calls

#[test]
fn frames_that_cannot_be_written() {
    for address in [256, 257, 1 << 16, u32::MAX] {
        assert_eq!(write_call(address, 1, 2, 64), BAD_FRAME, "address {address}");
    }
    for code in [16, 17, 256, 1 << 16, u32::MAX] {
        assert_eq!(write_call(1, code, 2, 64), BAD_FRAME, "code {code}");
    }
    for data_len in [16, 17, 255, 256, 272] {
        assert_eq!(write_call(1, 1, data_len, 1024), BAD_FRAME, "{data_len} data bytes");
    }
    assert_eq!(write_call(255, 15, 15, 19), DONE);
    assert_eq!(write_call(0, 0, 0, 4), DONE);
}

#[test]
fn room_too_short_for_the_frame() {
    for data_len in 0..=15 {
        for room_len in [0, data_len, data_len + 3] {
            assert_eq!(write_call(1, 1, data_len, room_len), SHORT_ROOM, "room {room_len} for {data_len}");
        }
        assert_eq!(write_call(1, 1, data_len, data_len + 4), DONE);
        assert_eq!(write_call(1, 1, data_len, data_len + 5), DONE);
    }
}

/// A reply of the right length and sum, every other byte 1.
fn reply(length: usize) -> Vec<u8> {
    let mut reply = vec![1; length];
    reply[length - 1] = (length - 1) as u8;
    reply
}

#[test]
fn replies_of_a_type_that_nobody_has() {
    for module_type in [1, 4, 255, 256, 258, 259, 1 << 16, u32::MAX] {
        assert_eq!(read_call(module_type, 0, &reply(2)), BAD_TYPE, "type {module_type}");
        assert_eq!(read_call(module_type, 0xFF, &[]), BAD_TYPE, "type {module_type}");
    }
    for module_type in TYPES {
        assert_eq!(read_call(module_type.into(), 0, &reply(2)), DONE);
    }
}

#[test]
fn replies_of_another_length() {
    // bytes of each item by itself: the servo's, then the I/O module's
    let sizes = [(0, [4, 1, 2, 1, 4, 2, 2, 1]), (2, [2, 1, 1, 1, 4, 2, 2, 4])];
    for (module_type, sizes) in sizes {
        for items in 0..=255u8 {
            let right: usize = 2 + (0..8).filter(|bit| items >> bit & 1 == 1).map(|bit| sizes[bit]).sum::<usize>();
            assert_eq!(read_call(module_type, items, &reply(right)), DONE, "items {items:02X}");
            assert_eq!(read_call(module_type, items, &reply(right - 1)), BAD_LENGTH, "items {items:02X}");
            assert_eq!(read_call(module_type, items, &reply(right + 1)), BAD_LENGTH, "items {items:02X}");
        }
        assert_eq!(read_call(module_type, 0, &[]), BAD_LENGTH);
        assert_eq!(read_call(module_type, 0xFF, &[]), BAD_LENGTH);
    }
}

#[test]
fn replies_with_items_that_a_stepper_has_not() {
    for items in 0..=255u8 {
        let right = 2 + usize::from(items & 0x01) * 4 + usize::from(items >> 5 & 1) * 2;
        let number = if items & !0x21 == 0 { DONE } else { BAD_LENGTH };
        assert_eq!(read_call(3, items, &reply(right)), number, "items {items:02X}");
        // whatever the length, also one that other items would have
        for length in (1..=40).filter(|length| *length != right) {
            assert_eq!(read_call(3, items, &reply(length)), BAD_LENGTH, "items {items:02X}, {length} bytes");
        }
        assert_eq!(read_call(3, items, &[]), BAD_LENGTH, "items {items:02X}");
        let mut wrong_sum = reply(right);
        wrong_sum[right - 1] ^= 1;
        let number = if items & !0x21 == 0 { BAD_SUM } else { BAD_LENGTH };
        assert_eq!(read_call(3, items, &wrong_sum), number, "items {items:02X}");
    }
}

#[test]
fn replies_with_a_wrong_sum() {
    for (module_type, items, length) in [(0, 0xFF, 19), (2, 0xFF, 19), (3, 0x21, 8)] {
        let good = reply(length);
        assert_eq!(read_call(module_type, items, &good), DONE);
        for at in 0..length {
            for change in [1, 0x80, 0xFF] {
                let mut bad = good.clone();
                bad[at] ^= change;
                assert_eq!(read_call(module_type, items, &bad), BAD_SUM, "byte {at}");
            }
        }
    }
}

// ---------------------------------------------------------------- which comes first

#[test]
fn byte_refusals_in_order() {
    let good = network(2);
    let mut bad = good.clone();
    bad[slot(1)] = 7;
    assert_eq!(byte_call(&mut bad.clone(), 2, 0, 0), BAD_RECORD);
    assert_eq!(byte_call(&mut bad.clone(), 2, 0, ROOM_LEN), BAD_RECORD);
    assert_eq!(byte_call(&mut bad.clone(), 0, 0, 0), BAD_RECORD);
    assert_eq!(byte_call(&mut good.clone(), 2, 0, 0), BAD_FIELD);
    assert_eq!(byte_call(&mut good.clone(), 2, 0, 607), BAD_FIELD);
    assert_eq!(byte_call(&mut good.clone(), 1, 0, 607), SHORT_ROOM);
}

/// Records that break the list, each in another way or by its length.
fn bad_records(good: &[u8]) -> Vec<Vec<u8>> {
    let spoils = [(slot(1), 7), (slot(0) + CAUSE, 6), (COUNT, 0), (MARK, 2)];
    let spoiled = spoils.into_iter().map(|(at, byte)| {
        let mut net = good.to_vec();
        net[at] = byte;
        net
    });
    spoiled.chain([good[..NET_LEN - 1].to_vec(), Vec::new()]).collect()
}

/// As many bytes and marks, with every choice of marks and room: what comes first of all faults is told.
fn first_fault_is_told(net: &[u8], earlier: [(bool, u32); 2], bytes: usize, marks: usize) {
    let line: Vec<u8> = buffer().into_iter().cycle().take(bytes).collect();
    // marks above 1 nowhere, at the first byte, at the last, everywhere
    for bad_marks in [0..0, 0..marks.min(1), marks.saturating_sub(1)..marks, 0..marks] {
        for room_len in [BUFFER_ROOM_LEN, BUFFER_ROOM_LEN - 1, ROOM_LEN, 0] {
            let mut marks = vec![1; marks];
            marks[bad_marks.clone()].fill(2);
            let later = [(!bad_marks.is_empty(), BAD_FIELD), (room_len < BUFFER_ROOM_LEN, SHORT_ROOM)];
            let mut faults = earlier.into_iter().chain(later).filter(|(there, _)| *there);
            let number = faults.next().map_or(DONE, |(_, number)| number);
            let told = bytes_call(&mut net.to_vec(), &line, &marks, room_len);
            assert_eq!(told, number, "{bytes} bytes, marks {marks:?}, room {room_len}, {earlier:?}");
        }
    }
}

#[test]
fn buffer_refusals_in_order() {
    let good = network(2);
    let bad = bad_records(&good);
    for (net, bad_record) in bad.iter().map(|net| (net, true)).chain([(&good, false)]) {
        let most = BUFFER_LEN;
        for (bytes, marks) in [(0, 0), (8, 8), (most, most), (8, 7), (7, 8), (8, 0), (0, 8), (most + 1, most + 1)] {
            let bad_lists = bytes != marks || bytes > most;
            first_fault_is_told(net, [(bad_record, BAD_RECORD), (bad_lists, BAD_LIST)], bytes, marks);
        }
    }
}

#[test]
fn outputs_and_cause_refusals_in_order() {
    let mut bad = network(2);
    assert_eq!(outputs_call(&bad, 2), BAD_PLACE);
    assert_eq!(cause_call(&bad, 2), BAD_PLACE);
    bad[slot(0) + CAUSE] = 6;
    assert_eq!(outputs_call(&bad, 2), BAD_RECORD);
    assert_eq!(cause_call(&bad, 2), BAD_RECORD);
}

#[test]
fn tick_refusals_in_order() {
    let net = chain(&MIXED);
    let last = MIXED.len() - 1;
    let mut spoiled = net.clone();
    spoiled[slot(last) + CAUSE] = 6;
    let good = list(&MIXED);
    let short = |list: &[u8]| list[..list.len() - 1].to_vec();
    let field_first = with(&good, 0, LIMITS, 4);
    let type_last = with(&good, last, TYPE, 7);
    let both = with(&field_first, last, TYPE, 7);
    let lists = [
        (good.clone(), DONE),
        (Vec::new(), BAD_LIST),
        (short(&good), BAD_LIST),
        (short(&type_last), BAD_LIST),
        (short(&field_first), BAD_LIST),
        (short(&both), BAD_LIST),
        (both, BAD_PLACE),
        (type_last, BAD_PLACE),
        (field_first, BAD_FIELD),
    ];
    for (list, number) in lists {
        assert_eq!(tick_call(&mut net.clone(), &list), number, "{list:02X?}");
        assert_eq!(tick_call(&mut spoiled.clone(), &list), BAD_RECORD, "{list:02X?}");
        let (mut short_record, mut empty_record) = (net[..NET_LEN - 1].to_vec(), Vec::new());
        assert_eq!(tick_call(&mut short_record, &list), BAD_RECORD, "{list:02X?}");
        assert_eq!(tick_call(&mut empty_record, &list), BAD_RECORD, "{list:02X?}");
    }
}

#[test]
fn setup_refusals_in_order() {
    let mut short = network(2);
    short.truncate(NET_LEN - 1);
    assert_eq!(setup_call(&mut short, &[]), BAD_RECORD);
    assert_eq!(setup_call(&mut short, &[7; 33]), BAD_RECORD);
    assert_eq!(setup_call(&mut short, &[7]), BAD_RECORD);
    assert_eq!(setup_call(&mut network(2), &[7; 33]), BAD_CHAIN);
    assert_eq!(setup_call(&mut network(2), &[7; 32]), BAD_TYPE);
}

#[test]
fn writer_refusals_in_order() {
    assert_eq!(write_call(256, 0, 0, 0), BAD_FRAME);
    assert_eq!(write_call(0, 16, 0, 3), BAD_FRAME);
    assert_eq!(write_call(0, 0, 16, 0), BAD_FRAME);
    assert_eq!(write_call(0, 0, 16, 19), BAD_FRAME);
    assert_eq!(write_call(0, 0, 15, 18), SHORT_ROOM);
}

#[test]
fn reader_refusals_in_order() {
    assert_eq!(read_call(1, 0, &[]), BAD_TYPE);
    assert_eq!(read_call(1, 0, &[1, 0]), BAD_TYPE);
    assert_eq!(read_call(2, 0, &[1, 0, 0]), BAD_LENGTH);
    assert_eq!(read_call(2, 0, &[1]), BAD_LENGTH);
    assert_eq!(read_call(2, 0, &[1, 0]), BAD_SUM);
    assert_eq!(read_call(2, 0, &[1, 1]), DONE);
}
