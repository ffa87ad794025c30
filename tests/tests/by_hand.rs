//! Answers worked out by hand, byte for byte: the bench sheet's frames, the manuals' frames, and what no reply shows but
//! the board drives. What a servo drives is in outputs.rs, what a step-motor module does in stepper.rs.

use doljurven_tests::calls::*;
use doljurven_tests::capi::Library;
use doljurven_tests::record::{slot, CAUSE, COUNT, IO_LEN, MARK, SLOTS, SLOT_LEN};

fn network(modules: usize) -> Vec<u8> {
    let mut net = vec![0x99; NET_LEN];
    assert_eq!(Library.setup(&mut net, &vec![2; modules]), DONE);
    net
}

/// Line bytes one after another: the last number, and all that was replied.
fn send(net: &mut [u8], bytes: &[u8]) -> (u32, Vec<u8>) {
    let mut last = DONE;
    let mut replied = Vec::new();
    for byte in bytes {
        let mut room = [0; ROOM_LEN];
        let mut written = 0;
        last = Library.byte(net, 0, *byte, &mut room, &mut written);
        replied.extend(&room[..written]);
    }
    (last, replied)
}

fn outputs(net: &[u8], place: u32) -> [u8; 8] {
    let mut outputs = [0xEE; 8];
    assert_eq!(Library.outputs(net, place, &mut outputs), DONE);
    outputs
}

fn cause(net: &[u8], place: u32) -> u8 {
    let mut cause = 0xEE;
    assert_eq!(Library.cause(net, place, &mut cause), DONE);
    cause
}

fn written(address: u32, code: u32, data: &[u8]) -> Vec<u8> {
    let mut room = [0; COUNT];
    let mut written = 0;
    assert_eq!(Library.write_frame(address, code, data, &mut room, &mut written), DONE);
    room[..written].to_vec()
}

fn reading(module_type: u32, items: u8, reply: &[u8]) -> (u8, [u32; 8]) {
    let mut bytes = [0xEE; 33];
    assert_eq!(Library.read_status(module_type, items, reply, &mut bytes), DONE);
    let number = |bit: usize| u32::from_le_bytes(bytes[1 + 4 * bit..5 + 4 * bit].try_into().unwrap());
    (bytes[0], std::array::from_fn(number))
}

#[test]
fn setup_writes_power_up_into_every_slot() {
    let net = network(3);
    let mut module = [0; SLOT_LEN];
    module[0] = 2;
    module[2] = 0xFF;
    module[17] = 0xFF;
    module[18] = 0x0F;
    for place in 0..32 {
        let expected = if place < 3 { module } else { [0; SLOT_LEN] };
        assert_eq!(net[slot(place)..slot(place + 1)], expected, "place {place}");
    }
    assert_eq!(net[..SLOTS], [0, 0, 0, 0, 0, 0, 0, 0, 0, 0, 0, 0, 0, 0, 0, 0, 0, 0, 0, 3]);
}

#[test]
fn setup_of_every_type() {
    let mut net = vec![0x99; NET_LEN];
    assert_eq!(Library.setup(&mut net, &[0, 2, 3, 0, 3]), DONE);
    let mut servo = [0; SLOT_LEN];
    // group, SM, error bit
    (servo[2], servo[35], servo[99]) = (0xFF, 1, 1);
    let mut stepper = [0; SLOT_LEN];
    (stepper[0], stepper[2]) = (3, 0xFF);
    assert_eq!(net[slot(0)..slot(1)], servo);
    assert_eq!(net[slot(1)..slot(2)], network(1)[slot(0)..slot(1)]);
    assert_eq!(net[slot(2)..slot(3)], stepper);
    assert_eq!(net[slot(3)..slot(4)], servo);
    assert_eq!(net[slot(4)..slot(5)], stepper);
    assert!(net[slot(5)..].iter().all(|byte| *byte == 0));
}

#[test]
fn servo_fields_stand_where_the_record_says() {
    let mut net = vec![0x99; NET_LEN];
    assert_eq!(Library.setup(&mut net, &[0]), DONE);
    assert_eq!(Library.tick(&mut net, &servo_sample(0x0A0B_0C0D, 1, 0x5A, 2)), DONE);
    let mut expect = |frame: &[u8], changes: &[(usize, &[u8])], expected: &mut [u8; SLOT_LEN]| {
        send(&mut net, frame);
        for (at, bytes) in changes {
            expected[*at..at + bytes.len()].copy_from_slice(bytes);
        }
        assert_eq!(net[slot(0)..slot(1)], *expected, "after {frame:02X?}");
    };
    let mut all = [0; SLOT_LEN];
    let power_up: [(usize, &[u8]); 4] =
        [(2, &[0xFF]), (8, &[1, 0x5A, 0x0D, 0x0C, 0x0B, 0x0A, 2]), (35, &[1]), (99, &[1])];
    expect(&[], &power_up, &mut all);
    expect(&written(0, 11, &[]), &[(99, &[0])], &mut all);
    // last position, setpoint, goal and home shift with the offset, though nothing runs and no home was found
    let shifted = &[0xF3, 0xF3, 0xF4, 0xF5][..];
    let offset = &[0x0D, 0x0C, 0x0B, 0x0A][..];
    let reset_position = [(15, offset), (19, shifted), (58, shifted), (66, shifted), (102, shifted)];
    expect(&written(0, 0, &[]), &reset_position, &mut all);
    expect(&written(0, 9, &[0x23]), &[(106, &[0x23])], &mut all);
    expect(&written(0, 9, &[0x11]), &[(106, &[0x11])], &mut all);

    let gains = [1, 2, 3, 4, 5, 6, 7, 8, 9, 10, 11, 12, 1, 0, 13];
    expect(&written(0, 6, &gains), &[(23, &[1, 2, 3, 4, 5, 6, 7, 8, 9, 11, 12, 10, 13])], &mut all);
    let load = [0x5F, 0x78, 0x56, 0x34, 0x12, 0x11, 0x22, 0x33, 0x01, 0x44, 0x55, 0x66, 0x02, 0x77];
    let loaded: [(usize, &[u8]); 2] = [
        (36, &[0x11, 0x22, 0x33, 0x01, 0x44, 0x55, 0x66, 0x02, 1, 1]),
        (46, &[1, 2, 1, 0x78, 0x56, 0x34, 0x12, 1, 0x77, 1]),
    ];
    expect(&written(0, 4, &load), &loaded, &mut all);
    let started: [(usize, &[u8]); 5] = [
        (46, &[0; 10]),
        (56, &[0; 6]),
        (66, &[0x78, 0x56, 0x34, 0x12]),
        (74, &[0x44, 0x55, 0x66, 0x02, 0x11, 0x22, 0x33, 0x01]),
        (90, &[4]),
    ];
    expect(&written(0, 5, &[]), &started, &mut all);
    // velocity mode keeps goal and top, PWM all of them
    let reversed = [(70, &[0xEF, 0xDD, 0xCC, 0xFE][..]), (90, &[3])];
    expect(&written(0, 4, &[0xF0]), &reversed, &mut all);
    expect(&written(0, 4, &[0xC8, 3]), &[(90, &[1, 0xFD, 0xFF, 0xFF, 0xFF])], &mut all);
    expect(&written(0, 7, &[0x11, 1, 2, 3, 4]), &[(58, &[1, 2, 3, 4]), (90, &[2, 0, 0, 0, 0]), (100, &[1])], &mut all);
    expect(&written(0, 7, &[0x08]), &[(70, &[0; 4]), (90, &[3]), (100, &[0])], &mut all);
    expect(&written(0, 7, &[0x02]), &[(90, &[0])], &mut all);
    // sample and offset stay
    let mut reset = [0; SLOT_LEN];
    reset[8..19].copy_from_slice(&all[8..19]);
    (reset[2], reset[35], reset[99]) = (0xFF, 1, 1);
    expect(&written(0, 15, &[]), &[(0, &reset)], &mut all);
}

#[test]
fn io_fields_stand_where_the_record_says() {
    let mut net = network(1);
    assert_eq!(Library.tick(&mut net, &io_sample(0xABC, [0x11, 0x22, 0x33], 0x0A0B_0C0D)), DONE);
    let mut all = [0; SLOT_LEN];
    (all[0], all[2]) = (2, 0xFF);
    all[8..19].copy_from_slice(&[0xBC, 0x0A, 0x11, 0x22, 0x33, 0x0D, 0x0C, 0x0B, 0x0A, 0xFF, 0x0F]);
    assert_eq!(net[slot(0)..slot(1)], all);
    send(&mut net, &written(0, 0, &[0xF0, 0x00]));
    send(&mut net, &written(0, 6, &[0x45, 0x03]));
    send(&mut net, &written(0, 4, &[0x66, 0x77]));
    send(&mut net, &written(0, 7, &[0x89, 0x0A, 0xBB, 0xCC]));
    send(&mut net, &written(0, 8, &[0xDD]));
    send(&mut net, &written(0, 12, &[]));
    // directions, register, PWMs, synch buffer, timer mode; captured are the inputs at bits 5 to 8, else the register
    all[17..23].copy_from_slice(&[0xF0, 0x00, 0x05, 0x03, 0x66, 0x77]);
    all[23..28].copy_from_slice(&[0x89, 0x0A, 0xBB, 0xCC, 0xDD]);
    all[28..34].copy_from_slice(&[0xB5, 0x03, 0x0D, 0x0C, 0x0B, 0x0A]);
    assert_eq!(net[slot(0)..slot(1)], all);
}

#[test]
fn stepper_fields_stand_where_the_record_says() {
    let mut net = vec![0x99; NET_LEN];
    assert_eq!(Library.setup(&mut net, &[3]), DONE);
    let mut all = [0; SLOT_LEN];
    (all[0], all[2]) = (3, 0xFF);
    let mut expect = |frame: &[u8], ticks: usize, changes: &[(usize, &[u8])]| {
        send(&mut net, frame);
        for _ in 0..ticks {
            assert_eq!(Library.tick(&mut net, &stepper_sample(0)), DONE);
        }
        for (at, bytes) in changes {
            all[*at..at + bytes.len()].copy_from_slice(bytes);
        }
        assert_eq!(net[slot(0)..slot(1)], all, "{frame:02X?}, then {ticks} ticks");
    };
    expect(&[], 1, &[]);
    // amplifier, then the minimum: of Set Parameters nothing else is stored
    expect(&written(0, 7, &[0x01]), 0, &[(8, &[1])]);
    expect(&written(0, 6, &[0xFF, 5, 0xEE, 0xDD, 0xCC]), 0, &[(9, &[5])]);
    // position and timer count, then the load: it waits, backward, speed and T
    let load = written(0, 4, &[0x1F, 0x78, 0x56, 0x34, 0x12, 0x0A, 0x03, 0x21, 0x43, 0x65]);
    let stored: [(usize, &[u8]); 2] = [(10, &[0x78, 0x56, 0x34, 0x12, 0x21, 0x43, 0x65, 0]), (18, &[1, 1, 10, 3])];
    expect(&load, 1, &stored);
    // a load without speed and T replaces it whole, the stored numbers stay
    expect(&written(0, 4, &[0x00]), 0, &[(18, &[1, 0, 0, 0])]);
    expect(&load, 0, &stored);
    // speed, backward, goal, T, ticks that have passed, stopping; the load is used up
    expect(&written(0, 5, &[]), 0, &[(18, &[0, 0, 0, 0, 5, 1, 10, 3, 0, 0])]);
    expect(&[], 2, &[(26, &[2]), (28, &[0xF6, 0xFF, 0xFF, 0xFF])]);
    expect(&[], 1, &[(22, &[6]), (26, &[0]), (28, &[0xF0])]);
    // while moving the minimum stays
    expect(&written(0, 6, &[0, 9, 0, 0, 0]), 0, &[]);
    expect(&written(0, 4, &[0x16, 20, 1]), 1, &[(18, &[1, 1, 20, 1]), (26, &[1]), (28, &[0xEA])]);
    expect(&written(0, 7, &[0x08]), 0, &[(8, &[0]), (18, &[0; 4]), (24, &[5]), (26, &[0, 1])]);
    expect(&[], 3, &[(22, &[5]), (28, &[0xD9])]);
    expect(&[], 2, &[(26, &[2]), (28, &[0xCF])]);
    expect(&[], 1, &[(22, &[0; 6])]);
    expect(&written(0, 15, &[]), 1, &[(8, &[0; 24])]);
}

#[test]
fn samples_stand_in_a_list_as_the_header_says() {
    assert_eq!(servo_sample(0x0A0B_0C0D, 2, 0x5A, 3), [0, 2, 0x5A, 0x0D, 0x0C, 0x0B, 0x0A, 3, 0, 0]);
    assert_eq!(io_sample(0xABC, [0x11, 0x22, 0x33], 0x0102_0304), [2, 0xBC, 0x0A, 0x11, 0x22, 0x33, 4, 3, 2, 1]);
    assert_eq!(stepper_sample(1), [3, 1, 0, 0, 0, 0, 0, 0, 0, 0]);
    assert_eq!((no_sample(0), no_sample(2)), (servo_sample(0, 0, 0, 0), io_sample(0, [0; 3], 0)));
    assert_eq!(no_sample(3), stepper_sample(0));
}

/// Whether each place has latched its own sample of a list, servos and I/O modules.
fn latched(net: &[u8], list: &[Sample]) -> bool {
    list.iter().enumerate().all(|(place, sample)| {
        let own = if sample[0] == 0 { &sample[1..8] } else { &sample[1..] };
        net[slot(place) + 8..].starts_with(own)
    })
}

#[test]
fn each_place_gets_its_own_sample_at_each_tick() {
    let mut net = vec![0x99; NET_LEN];
    assert_eq!(Library.setup(&mut net, &[0, 0, 2, 2]), DONE);
    assert!(latched(&net, &[0, 0, 2, 2].map(no_sample)), "nothing is measured at power-up");
    for address in 1..=4 {
        send(&mut net, &written(0, 1, &[address, 0xFF]));
    }
    let first = [
        [0, 0, 0x11, 0x0D, 0x0C, 0x0B, 0x0A, 1, 0, 0],
        [0, 1, 0x31, 0x00, 0x10, 0, 0, 3, 0, 0],
        [2, 0xBC, 0x0A, 0x21, 0x22, 0x23, 1, 2, 3, 4],
        [2, 0xFF, 0x0F, 0x41, 0x42, 0x43, 5, 6, 7, 8],
    ];
    let second = [
        [0, 1, 0x51, 0x1D, 0x0C, 0x0B, 0x0A, 2, 0, 0],
        [0, 2, 0x71, 0xFF, 0x0F, 0, 0, 0, 0, 0],
        [2, 0x23, 0x01, 0x61, 0x62, 0x63, 9, 10, 11, 12],
        [2, 0, 0, 0, 0, 0, 0xFF, 0xFF, 0xFF, 0xFF],
    ];
    for list in [first, second] {
        assert_eq!(Library.tick(&mut net, &list.concat()), DONE);
        assert!(latched(&net, &list));
    }
    // position, A/D and last tick's change of a servo, with limit 2 in status bit 6 of the first; inputs, A/D 1 to 3 and
    // counter of an I/O module
    let replies: [(u8, &[u8]); 4] = [
        (0x07, &[0x59, 0x1D, 0x0C, 0x0B, 0x0A, 0x51, 0x10, 0x00, 0xF8]),
        (0x07, &[0x11, 0xFF, 0x0F, 0x00, 0x00, 0x71, 0xFF, 0xFF, 0x8E]),
        (0x1F, &[0x00, 0x23, 0x01, 0x61, 0x62, 0x63, 9, 10, 11, 12, 0x74]),
        (0x1F, &[0x00, 0, 0, 0, 0, 0, 0xFF, 0xFF, 0xFF, 0xFF, 0xFC]),
    ];
    for (address, (items, reply)) in (1..).zip(replies) {
        assert_eq!(send(&mut net, &written(address, 3, &[items])), (UNDAMAGED, reply.to_vec()), "address {address}");
    }
    assert_eq!(Library.tick(&mut net, &second.concat()), DONE);
    let unmoved = &[0x59, 0x1D, 0x0C, 0x0B, 0x0A, 0x51, 0x00, 0x00, 0xE8];
    assert_eq!(send(&mut net, &written(1, 3, &[0x07])), (UNDAMAGED, unmoved.to_vec()), "the same list again");
}

#[test]
fn place_meets_its_own_samples_and_no_refused_tick() {
    let [a, b, c] = [servo_sample(100, 1, 7, 0), io_sample(0x123, [1, 2, 3], 4), io_sample(0x456, [5, 6, 7], 8)];
    let out_of_range = io_sample(0x1000, [1, 2, 3], 4);
    let before = servo_and_io();
    let after = |ticks: &[(&[Sample], u32)]| {
        let mut net = before.clone();
        for (list, number) in ticks {
            assert_eq!(Library.tick(&mut net, &list.concat()), *number);
        }
        net
    };
    let ab = after(&[(&[a, b], DONE)]);
    let ac = after(&[(&[a, c], DONE)]);
    assert_eq!(ab[..slot(1)], ac[..slot(1)], "whatever the other place has measured");
    assert_ne!(ab[slot(1)..], ac[slot(1)..]);
    let bad = [a, out_of_range];
    for (refused, number) in [(&bad[..], BAD_FIELD), (&[a, a], BAD_PLACE), (&[a], BAD_LIST)] {
        assert_eq!(after(&[(refused, number), (&[a, b], DONE)]), ab, "number {number} before the tick");
        assert_eq!(after(&[(&[a, b], DONE), (refused, number)]), ab, "number {number} after it");
    }
    // a frame for an address that nobody has may stand on either side of a tick
    let nobody = written(77, 14, &[]);
    let (mut frame_first, mut tick_first) = (before.clone(), ab);
    send(&mut frame_first, &nobody);
    assert_eq!(Library.tick(&mut frame_first, &[a, b].concat()), DONE);
    send(&mut tick_first, &nobody);
    assert_eq!(frame_first, tick_first);
}

#[test]
fn hard_reset_keeps_what_is_latched() {
    let list = [servo_sample(0x0A0B_0C0D, 1, 0x51, 1), io_sample(0x123, [0x61, 0x62, 0x63], 0x0C0B_0A09)];
    let mut net = servo_and_io();
    assert_eq!(Library.tick(&mut net, &list.concat()), DONE);
    assert_eq!(send(&mut net, &written(0xFF, 15, &[])), (UNDAMAGED, vec![]));
    assert!(latched(&net, &list));
    // position 0, power still good, limit 1 still 1
    assert_eq!(send(&mut net, &written(0, 3, &[0x03])).1, [0x39, 0, 0, 0, 0, 0x51, 0x8A]);
    // the next tick takes its own sample, and the position counts from the reset
    let next = [servo_sample(0x0A0B_0C0F, 2, 0x52, 0), no_sample(2)];
    assert_eq!(Library.tick(&mut net, &next.concat()), DONE);
    assert!(latched(&net, &next));
    assert_eq!(send(&mut net, &written(0, 3, &[0x03])).1, [0x11, 2, 0, 0, 0, 0x52, 0x65]);
}

#[test]
fn cut_tick_leaves_the_integral_and_sets_byte_101() {
    let mut net = vec![0x99; NET_LEN];
    assert_eq!(Library.setup(&mut net, &[0]), DONE);
    assert_eq!(Library.tick(&mut net, &servo_sample(0, 1, 0, 0)), DONE);
    // Kp 256, Ki 256, IL 100, OL 9, EL 16,383; Clear Bits; Stop Here at 20
    send(&mut net, &written(0, 6, &[0, 1, 0, 0, 0, 1, 100, 0, 9, 0, 0xFF, 0x3F, 1, 0, 1]));
    send(&mut net, &written(0, 11, &[]));
    send(&mut net, &written(0, 7, &[0x10, 20, 0, 0, 0]));
    let mut expected = net[slot(0)..slot(1)].to_vec();
    // 20 + 20 to put out
    assert_eq!(Library.tick(&mut net, &servo_sample(0, 1, 0, 0)), DONE);
    (expected[86], expected[95], expected[101]) = (20, 9, 1);
    assert_eq!(net[slot(0)..slot(1)], expected, "cut: previous error, output, cut bit");
    // at 18 there are 2 + 2
    assert_eq!(Library.tick(&mut net, &servo_sample(18, 1, 0, 0)), DONE);
    expected[10] = 18;
    (expected[82], expected[86], expected[95], expected[101]) = (2, 2, 4, 0);
    assert_eq!(net[slot(0)..slot(1)], expected, "not cut: the integral, too");
}

#[test]
fn bench_sheet_frames_read_undamaged() {
    assert_eq!(send(&mut network(1), &[0xAA, 0x01, 0x17, 0x02, 0x1A]), (UNDAMAGED, vec![]));
    let stop_here = [0xAA, 0x01, 0x57, 0x11, 0x64, 0x00, 0x00, 0x00, 0xCD];
    assert_eq!(send(&mut network(1), &stop_here), (UNDAMAGED, vec![]));
    assert_eq!(written(1, 7, &[0x02]), [0xAA, 0x01, 0x17, 0x02, 0x1A]);
    assert_eq!(written(1, 7, &[0x11, 0x64, 0, 0, 0]), stop_here);
}

#[test]
fn bench_sheet_set_address() {
    let mut net = network(2);
    assert_eq!(send(&mut net, &[0xAA, 0x00, 0x21, 0x01, 0xFF, 0x21]), (UNDAMAGED, vec![0, 0]));
    // individual, group, leader, ADDR_OUT low, cause
    assert_eq!(net[slot(0) + 1..slot(0) + 6], [1, 255, 0, 1, 0]);
    assert_eq!(net[slot(1) + 1..slot(1) + 6], [0, 255, 0, 0, 0], "two have not become 1");
}

#[test]
fn bench_sheet_header_and_sixteen_nulls_end_idle() {
    let mut net = network(1);
    let mut line = vec![0xAA];
    line.extend([0; 16]);
    assert_eq!(send(&mut net, &line), (DONE, vec![2, 2]), "the first three nulls are a frame");
    assert_eq!(net[..COUNT], [0; COUNT]);
}

#[test]
fn sixteen_nulls_end_every_frame_idle() {
    for command in 0..=255 {
        for also in 0..=usize::from(command >> 4) {
            let mut net = network(1);
            let mut line = vec![0xAA, 0x07, command];
            line.extend(vec![0xAA; also]);
            line.extend([0; 16]);
            send(&mut net, &line);
            assert_eq!(net[..COUNT], [0; COUNT], "command {command:02X} with {also} data bytes");
        }
    }
}

#[test]
fn open_frame_is_kept_in_the_record() {
    let mut net = network(1);
    let expect = |net: &[u8], data: &[u8], address: u8, command: u8, fill: u8| {
        let mut receiver = [0; COUNT];
        receiver[..data.len()].copy_from_slice(data);
        receiver[15..18].copy_from_slice(&[address, command, fill]);
        assert_eq!(net[..COUNT], receiver);
    };
    send(&mut net, &[0xAA]);
    expect(&net, &[], 0, 0, 1);
    send(&mut net, &[0x05]);
    expect(&net, &[], 5, 0, 2);
    send(&mut net, &[0x47]);
    expect(&net, &[], 5, 0x47, 3);
    send(&mut net, &[0xAA, 0x11]);
    expect(&net, &[0xAA, 0x11], 5, 0x47, 5);
    let (mut room, mut written) = ([0; ROOM_LEN], 9);
    assert_eq!(Library.byte(&mut net, 1, 0x22, &mut room, &mut written), DONE);
    assert_eq!((net[MARK], written), (1, 0));
}

#[test]
fn board_drives_what_the_commands_set() {
    let mut net = network(2);
    assert_eq!(outputs(&net, 0), [0xFF, 0x0F, 0, 0, 0, 0, 0, 0]);
    send(&mut net, &written(0, 0, &[0x0F, 0xF0]));
    send(&mut net, &written(0, 6, &[0x5A, 0xFF]));
    send(&mut net, &written(0, 4, &[0x40, 0xC0]));
    // bits 1 to 4 are inputs and keep their register, the upper nibble of the second byte is nothing
    assert_eq!(outputs(&net, 0), [0x0F, 0x00, 0x50, 0x0F, 0x40, 0xC0, 0, 0]);
    send(&mut net, &written(0, 7, &[0xFF, 0x00, 1, 2]));
    assert_eq!(outputs(&net, 0), [0x0F, 0x00, 0x50, 0x0F, 0x40, 0xC0, 0, 0]);
    send(&mut net, &written(0, 5, &[]));
    assert_eq!(outputs(&net, 0), [0x0F, 0x00, 0xF0, 0x00, 1, 2, 0, 0]);
    send(&mut net, &written(0, 15, &[]));
    assert_eq!(outputs(&net, 0), [0xFF, 0x0F, 0, 0, 0, 0, 0, 0]);
    assert_eq!(outputs(&net, 1), [0xFF, 0x0F, 0, 0, 0, 0, 0, 0], "place 1 never heard of it");
}

#[test]
fn last_cause_is_told_at_its_place() {
    let mut net = servo_and_io();
    let mut told = |bytes: &[u8]| {
        send(&mut net, bytes);
        [cause(&net, 0), cause(&net, 1)]
    };
    let mut damaged = written(1, 14, &[]);
    damaged[3] ^= 1;
    assert_eq!(told(&[]), [0, 0], "both Set Address were executed");
    assert_eq!(told(&written(1, 5, &[])), [3, 0], "a Start with no load waiting");
    assert_eq!(told(&written(2, 14, &[7])), [3, 2], "a No Op with a data byte");
    assert_eq!(told(&written(1, 8, &[7])), [4, 2], "Set Timer Mode, which a servo has not");
    assert_eq!(told(&written(1, 7, &[0x20])), [5, 2], "a Stop with bit 5");
    assert_eq!(told(&damaged), [1, 2]);
    assert_eq!(told(&written(0xFF, 14, &[])), [0, 0]);
}

#[test]
fn stored_where_no_reply_shows_it() {
    let mut net = network(1);
    send(&mut net, &written(0, 8, &[0x33]));
    send(&mut net, &written(0xFF, 10, &[0x0A]));
    assert_eq!((net[slot(0) + 27], net[slot(0) + 7]), (0x33, 0x0A));
    let before = net[slot(0)..slot(0) + IO_LEN].to_vec();
    assert_eq!(send(&mut net, &written(0, 10, &[0x3F])).1, [2, 2]);
    let mut expected = before;
    expected[CAUSE] = 4;
    assert_eq!(net[slot(0)..slot(0) + IO_LEN], expected, "Set Baud individually leaves its cause and nothing else");
}

/// A servo at 1 and an I/O module at 2, both of group 255. The servo has no power: what would move it is not now.
fn servo_and_io() -> Vec<u8> {
    let mut net = vec![0x99; NET_LEN];
    assert_eq!(Library.setup(&mut net, &[0, 2]), DONE);
    send(&mut net, &written(0, 1, &[1, 0xFF]));
    send(&mut net, &written(0, 1, &[2, 0xFF]));
    net
}

/// A servo at 1, an I/O module at 2 and a stepper at 3, all of group 255. The servo has no power, the stepper no minimum:
/// what would move them is not now.
fn all_types() -> Vec<u8> {
    let mut net = vec![0x99; NET_LEN];
    assert_eq!(Library.setup(&mut net, &[0, 2, 3]), DONE);
    for address in 1..=3 {
        send(&mut net, &written(0, 1, &[address, 0xFF]));
    }
    net
}

/// The cause that a frame leaves at each of the three; one that is not 0 leaves nothing else.
fn causes_after(net: &mut [u8], frame: &[u8]) -> [u8; 3] {
    let before = net.to_vec();
    send(net, frame);
    [0, 1, 2].map(|place| {
        let mut kept = before[slot(place)..slot(place + 1)].to_vec();
        let cause = net[slot(place) + CAUSE];
        kept[CAUSE] = cause;
        assert!(cause == 0 || net[slot(place)..slot(place + 1)] == kept, "{frame:02X?} changed more at {place}");
        cause
    })
}

/// Code and data, then the causes at the servo, at the I/O module and at the stepper.
type FrameAndCauses = (u8, &'static [u8], [u8; 3]);

const FRAMES_AND_CAUSES: &[FrameAndCauses] = &[
    (14, &[], [0, 0, 0]),
    // a code that nobody knows has no right count; one that another knows is unknown here all the same
    (13, &[], [4, 4, 4]),
    (13, &[1, 2, 3], [4, 4, 4]),
    (8, &[0x33], [4, 0, 4]),
    (8, &[], [4, 2, 4]),
    (12, &[], [4, 0, 4]),
    (12, &[1], [4, 2, 4]),
    (11, &[1], [2, 4, 4]),
    // Set Homing, which a servo alone has: count, then the byte; never not now
    (9, &[], [2, 4, 4]),
    (9, &[0x13, 0], [2, 4, 4]),
    (9, &[0, 0], [2, 4, 4]),
    (9, &[0x13], [0, 4, 4]),
    (9, &[0x00], [5, 4, 4]),
    (9, &[0x33], [5, 4, 4]),
    (9, &[0x93], [5, 4, 4]),
    // counts, each by the type's own command
    (1, &[5], [2, 2, 2]),
    (2, &[], [2, 2, 2]),
    (3, &[1, 2], [2, 2, 2]),
    (14, &[0], [2, 2, 2]),
    (15, &[1], [2, 2, 2]),
    (0, &[], [0, 2, 4]),
    (0, &[0, 0], [2, 0, 4]),
    (6, &[0, 0], [2, 0, 2]),
    (7, &[0, 0, 0, 0], [2, 0, 2]),
    // loads: count, then values, then whether it can start
    (4, &[], [2, 2, 2]),
    (4, &[0x97, 0, 0, 0, 0, 0, 0, 0, 0], [2, 2, 2]),
    (4, &[0x06, 0x01, 0x00, 0x00, 0x05, 1, 0, 0], [2, 2, 2]),
    (4, &[0x02, 0x01, 0x00, 0x00, 0x05, 0], [2, 2, 2]),
    (4, &[0x02, 0x01, 0x00, 0x00, 0x05], [5, 2, 2]),
    (4, &[0x92, 0x01, 0x00, 0x00, 0x05], [5, 2, 2]),
    (4, &[0x92, 0x00, 0x00, 0x00, 0x05], [3, 2, 2]),
    (4, &[0x04, 0, 0, 0, 0], [5, 2, 2]),
    (4, &[0x94, 0, 0, 0, 0], [5, 2, 2]),
    (4, &[0x94, 1, 0, 0, 0], [3, 2, 2]),
    (4, &[0x04, 0x01, 0x00, 0x00, 0x05], [5, 2, 2]),
    (4, &[0x88, 7], [3, 0, 2]),
    (5, &[], [3, 0, 3]),
    (5, &[0], [2, 2, 2]),
    // Kp, Kd, Ki, IL and EL too large, SR not 1, DB not 0; and a short one with Kp too large
    (6, &[0, 0x7F, 0, 0, 0, 0, 0, 0, 0, 0, 0xFF, 0x3F, 1, 0, 0], [0, 2, 2]),
    (6, &[0, 0x80, 0, 0, 0, 0, 0, 0, 0, 0, 0, 0, 1, 0, 0], [5, 2, 2]),
    (6, &[0, 0, 0, 0x80, 0, 0, 0, 0, 0, 0, 0, 0, 1, 0, 0], [5, 2, 2]),
    (6, &[0, 0, 0, 0, 0, 0x80, 0, 0, 0, 0, 0, 0, 1, 0, 0], [5, 2, 2]),
    (6, &[0, 0, 0, 0, 0, 0, 0, 0x80, 0, 0, 0, 0, 1, 0, 0], [5, 2, 2]),
    (6, &[0, 0, 0, 0, 0, 0, 0, 0, 0, 0, 0, 0x40, 1, 0, 0], [5, 2, 2]),
    (6, &[0, 0, 0, 0, 0, 0, 0, 0, 0, 0, 0, 0, 0, 0, 0], [5, 2, 2]),
    (6, &[0, 0, 0, 0, 0, 0, 0, 0, 0, 0, 0, 0, 1, 1, 0], [5, 2, 2]),
    (6, &[0, 0x80, 0, 0, 0, 0, 0, 0, 0, 0, 0, 0, 1, 0], [2, 2, 2]),
    // Stop: its count by bit 4 alone, then its bits, then whether it can hold
    (7, &[], [2, 2, 2]),
    (7, &[0x12], [2, 2, 5]),
    (7, &[0x12, 0, 0, 0, 0], [5, 2, 2]),
    (7, &[0x0A, 0, 0, 0, 0], [2, 2, 2]),
    (7, &[0x06], [5, 2, 5]),
    (7, &[0x20], [5, 2, 5]),
    (7, &[0x44], [5, 2, 5]),
    (7, &[0x80, 0], [2, 2, 2]),
    (7, &[0x04], [3, 2, 0]),
    (7, &[0x04, 0], [2, 2, 2]),
    (7, &[0x10, 0, 0, 0, 0], [3, 2, 2]),
    (7, &[0x08], [0, 2, 0]),
    (11, &[], [0, 4, 4]),
    // items that a stepper has not
    (2, &[0xFF], [0, 0, 5]),
    (2, &[0x02], [0, 0, 5]),
    (3, &[0x40], [0, 0, 5]),
    (3, &[0x21], [0, 0, 0]),
    (2, &[0xFF, 0], [2, 2, 2]),
    (2, &[0x00], [0, 0, 0]),
    // a stepper's loads: count, then values, then whether it can start; two bytes are a Set PWM to the I/O module
    (4, &[0x02, 100], [2, 0, 0]),
    (4, &[0x02, 250], [2, 0, 0]),
    (4, &[0x02, 0], [2, 0, 5]),
    (4, &[0x02, 251], [2, 0, 5]),
    (4, &[0x04, 255], [2, 0, 0]),
    (4, &[0x04, 0], [2, 0, 5]),
    (4, &[0x22, 5], [2, 0, 5]),
    (4, &[0x42, 5], [2, 0, 5]),
    (4, &[0x06, 0], [2, 0, 2]),
    (4, &[0x82, 0], [2, 0, 5]),
    (4, &[0x82, 5], [2, 0, 3]),
    (4, &[0x88, 1, 2, 3], [2, 2, 3]),
    (4, &[0x86, 5, 1], [2, 2, 3]),
    (4, &[0x80], [3, 2, 3]),
    // Set Parameters: count, then the minimum; then the load that was not now
    (6, &[0, 0, 0, 0], [2, 2, 2]),
    (6, &[0, 0, 0, 0, 0], [2, 2, 5]),
    (6, &[0, 251, 0, 0, 0], [2, 2, 5]),
    (6, &[0xFF, 250, 0xFF, 0xFF, 0xFF], [2, 2, 0]),
    (6, &[0, 1, 0, 0, 0], [2, 2, 0]),
    (4, &[0x86, 5, 1], [2, 2, 0]),
    // moving forward: the other direction is not now, a minimum that stays is executed
    (4, &[0x96, 5, 1], [2, 2, 3]),
    (6, &[0, 7, 0, 0, 0], [2, 2, 0]),
    (6, &[0, 0, 0, 0, 0], [2, 2, 5]),
    (4, &[0x16, 5, 1], [2, 2, 0]),
    (5, &[], [3, 0, 3]),
    (4, &[0x06, 5, 1], [2, 2, 0]),
    (5, &[], [3, 0, 0]),
    (5, &[], [3, 0, 3]),
    (7, &[0x0C], [5, 2, 5]),
    (7, &[0x0D], [5, 2, 5]),
    (7, &[0x05], [3, 2, 0]),
];

#[test]
fn each_fault_has_its_cause() {
    let mut net = all_types();
    for (code, data, causes) in FRAMES_AND_CAUSES {
        let frame = written(0xFF, u32::from(*code), data);
        let mut damaged = frame.clone();
        *damaged.last_mut().unwrap() ^= 1;
        assert_eq!(causes_after(&mut net, &damaged), [1; 3], "code {code}, data {data:02X?}, damaged");
        assert_eq!(causes_after(&mut net, &frame), *causes, "code {code}, data {data:02X?}");
    }
}

#[test]
fn set_baud_sent_individually_is_unknown_whatever_its_count() {
    let mut net = all_types();
    let counts: [(&[u8], u8); 3] = [(&[], 2), (&[0x3F], 0), (&[0x3F, 0x3F], 2)];
    for (data, by_group) in counts {
        assert_eq!(causes_after(&mut net, &written(0xFF, 10, data)), [by_group; 3], "{data:02X?} to the group");
        send(&mut net, &written(1, 10, data));
        send(&mut net, &written(2, 10, data));
        assert_eq!(causes_after(&mut net, &written(3, 10, data)), [4; 3], "{data:02X?} to each alone");
    }
}

#[test]
fn unmarked_and_marked_headers() {
    let mut net = network(1);
    let (mut room, mut length) = ([0; ROOM_LEN], 0);
    assert_eq!(Library.byte(&mut net, 1, 0xAA, &mut room, &mut length), DONE);
    assert_eq!(net[..COUNT], [0; COUNT], "a marked header opens nothing");
    assert_eq!(Library.byte(&mut net, 0, 0xAB, &mut room, &mut length), DONE);
    assert_eq!(net[..COUNT], [0; COUNT]);
    assert_eq!(net[COUNT], 1);
}

#[test]
fn status_reader_takes_replies_apart() {
    assert_eq!(reading(2, 0, &[0x02, 0x02]), (2, [0; 8]));
    let io = [
        0x00, 0xA9, 0x05, 0x44, 0x55, 0x66, 0x78, 0x56, 0x34, 0x12, 0x02, 0x01, 0xA5, 0x09, 0x21, 0x43, 0x65, 0x87,
        0xC2,
    ];
    assert_eq!(reading(2, 0xFF, &io), (0, [0x5A9, 0x44, 0x55, 0x66, 0x1234_5678, 0x0102, 0x9A5, 0x8765_4321]));
    assert_eq!(reading(2, 0x28, &[0x00, 0x66, 0x02, 0x01, 0x69]), (0, [0, 0, 0, 0x66, 0, 0x0102, 0, 0]));
    let servo = [
        0xF9, 0xFE, 0xFF, 0xFF, 0xFF, 0x80, 0x34, 0x12, 0x00, 0x01, 0x00, 0x00, 0x80, 0x00, 0x0A, 0xFF, 0xFF, 0x00,
        0x43,
    ];
    assert_eq!(reading(0, 0xFF, &servo), (0xF9, [0xFFFF_FFFE, 0x80, 0x1234, 0, 0x8000_0001, 0x0A00, 0xFFFF, 0]));
    assert_eq!(reading(0, 0x20, &[0x11, 0x00, 0x0A, 0x1B]), (0x11, [0, 0, 0, 0, 0, 0x0A00, 0, 0]));
    let stepper = [0x01, 0xFE, 0xFF, 0xFF, 0xFF, 0x03, 0x01, 0x00];
    assert_eq!(reading(3, 0x21, &stepper), (1, [0xFFFF_FFFE, 0, 0, 0, 0, 0x0103, 0, 0]));
    assert_eq!(reading(3, 0x20, &[0x02, 0x03, 0x01, 0x06]), (2, [0, 0, 0, 0, 0, 0x0103, 0, 0]));
    assert_eq!(reading(3, 0x01, &[0x00, 1, 2, 3, 4, 10]), (0, [0x0403_0201, 0, 0, 0, 0, 0, 0, 0]));
    assert_eq!(reading(3, 0, &[0x03, 0x03]), (3, [0; 8]));
}
