//! A whole buffer in one call, beside the byte calls that it stands for: frames cut anywhere, long traffic against single
//! calls on a second record, and answers worked out by hand. How a buffer is refused is in refusals.rs.

use doljurven_tests::calls::*;
use doljurven_tests::capi::Library;
use doljurven_tests::dice::Dice;
use doljurven_tests::model::{frame_bytes, Network};
use doljurven_tests::record::{decode, slot, COUNT, FILL, MARK};
use doljurven_tests::slips::Slip;
use doljurven_tests::steering;
use doljurven_tests::steering::buffer::{full_buffer, noise, traffic, Line};

/// What a lent room holds before a call: no two neighbours alike, so that nothing can be moved unseen.
fn junk(len: usize) -> Vec<u8> {
    (0..len).map(|at| (at % 251) as u8 ^ 0xA5).collect()
}

/// A buffer that is taken: what is replied. Both lists and the room behind the replies stay as they were.
fn in_one_call(net: &mut [u8], line: &Line, room_len: usize) -> Vec<u8> {
    let Line { bytes, marks } = line.clone();
    let mut room = junk(room_len);
    let mut written = 77;
    assert_eq!(Library.bytes(net, &bytes, &marks, &mut room, &mut written), DONE, "{line:02X?}");
    assert_eq!((&bytes, &marks), (&line.bytes, &line.marks), "a list changed");
    assert_eq!(room[written..], junk(room_len)[written..], "the room behind the replies");
    room.truncate(written);
    room
}

/// The same by byte calls: what is replied, and how many frames have ended.
fn one_by_one(net: &mut [u8], line: &Line) -> (Vec<u8>, usize) {
    let (mut replied, mut ended) = (Vec::new(), 0);
    for (mark, byte) in line.marks.iter().zip(&line.bytes) {
        let (mut room, mut written) = ([0; ROOM_LEN], 77);
        let number = Library.byte(net, (*mark).into(), *byte, &mut room, &mut written);
        assert!(number <= DAMAGED, "number {number}");
        ended += usize::from(number != DONE);
        replied.extend(&room[..written]);
    }
    (replied, ended)
}

/// Two records that stay the same: one has its bytes by buffers, the other one by one.
struct Twins {
    buffered: Vec<u8>,
    single: Vec<u8>,
    /// What has come up.
    frames: usize,
    replied: usize,
    most_in_one: usize,
}

impl Twins {
    fn of(net: &[u8]) -> Twins {
        Twins { buffered: net.to_vec(), single: net.to_vec(), frames: 0, replied: 0, most_in_one: 0 }
    }

    fn network(&self) -> Network {
        decode(&self.single, Slip::None).expect("a record that was taken")
    }

    fn buffer(&mut self, line: &Line) {
        let (expected, ended) = one_by_one(&mut self.single, line);
        let replied = in_one_call(&mut self.buffered, line, BUFFER_ROOM_LEN);
        assert_eq!(replied, expected, "replies to {line:02X?}");
        assert_eq!(self.buffered, self.single, "record after {line:02X?}");
        self.frames += ended;
        self.replied += replied.len();
        self.most_in_one = self.most_in_one.max(ended);
    }

    /// One after another, each part a buffer of its own.
    fn cut(&mut self, line: &Line, at: &[usize]) {
        let mut from = 0;
        for to in at.iter().copied().chain([line.len()]) {
            self.buffer(&line.part(from, to - from));
            from = to;
        }
    }

    /// Both by a byte call.
    fn byte(&mut self, line: &Line) {
        let replied = one_by_one(&mut self.buffered, line);
        assert_eq!(replied, one_by_one(&mut self.single, line), "{line:02X?}");
        assert_eq!(self.buffered, self.single, "record after byte calls");
    }

    fn tick(&mut self, list: &[u8]) {
        assert_eq!(Library.tick(&mut self.buffered, list), DONE);
        assert_eq!(Library.tick(&mut self.single, list), DONE);
        assert_eq!(self.buffered, self.single, "record after a tick");
    }
}

fn power_up(types: &[u8]) -> Vec<u8> {
    let mut net = vec![0x99; NET_LEN];
    assert_eq!(Library.setup(&mut net, types), DONE);
    net
}

/// Addressed from 1 on, all of group 255; with power, servos without the error bit, steppers with a minimum.
fn chain(types: &[u8]) -> Vec<u8> {
    let mut net = power_up(types);
    for address in 1..=types.len() as u8 {
        send(&mut net, &frame_bytes(0, 1, &[address, 0xFF]));
    }
    let sample = |module_type: &u8| match module_type {
        0 => servo_sample(1000, 1, 0x5A, 0),
        2 => io_sample(0xA5C, [1, 2, 3], 0x1234_5678),
        _ => stepper_sample(0),
    };
    let list: Vec<u8> = types.iter().flat_map(sample).collect();
    assert_eq!(Library.tick(&mut net, &list), DONE);
    send(&mut net, &frame_bytes(0xFF, 11, &[]));
    send(&mut net, &frame_bytes(0xFF, 6, &[0, 5, 0, 0, 0]));
    net
}

/// By byte calls, unmarked.
fn send(net: &mut [u8], bytes: &[u8]) -> Vec<u8> {
    one_by_one(net, &Line::unmarked(bytes)).0
}

fn outputs(net: &[u8], place: u32) -> [u8; 8] {
    let mut outputs = [0xEE; 8];
    assert_eq!(Library.outputs(net, place, &mut outputs), DONE);
    outputs
}

// ---------------------------------------------------------------- frames cut anywhere

const ALL_TYPES: [u8; 3] = [0, 2, 3];

/// Frames for a servo at 1, an I/O module at 2 and a stepper at 3: the shortest and the longest, with the header among
/// their bytes, and such as nobody executes.
fn frames() -> Vec<Vec<u8>> {
    let mut wrong_sum = frame_bytes(1, 3, &[0xFF]);
    wrong_sum[4] ^= 1;
    vec![
        frame_bytes(0xFF, 14, &[]),
        frame_bytes(1, 3, &[0xFF]),
        frame_bytes(2, 2, &[0xFF]),
        frame_bytes(2, 7, &[0xAA, 0xAA, 0xAA, 0xAA]),
        frame_bytes(1, 6, &[1, 2, 3, 4, 5, 6, 7, 8, 0xAA, 10, 11, 12, 1, 0, 13]),
        frame_bytes(1, 4, &[0x97, 0x78, 0x56, 0, 0, 0, 0, 1, 0, 0, 0, 1, 0]),
        frame_bytes(3, 4, &[0x96, 10, 3]),
        frame_bytes(0xFF, 15, &[]),
        frame_bytes(0xAA, 1, &[0xAA, 0xAA]),
        frame_bytes(0x77, 0, &[0; 15]),
        wrong_sum,
    ]
}

#[test]
fn frame_cut_at_every_place() {
    let net = chain(&ALL_TYPES);
    for frame in frames() {
        for first in 0..=frame.len() {
            for second in first..=frame.len() {
                let mut twins = Twins::of(&net);
                twins.cut(&Line::unmarked(&frame), &[first, second]);
                // what comes behind it is a frame of its own again
                twins.buffer(&Line::unmarked(&frame_bytes(2, 3, &[0x1F])));
                assert_eq!(twins.frames, 2, "{frame:02X?} cut at {first} and {second}");
            }
        }
    }
}

#[test]
fn marked_frame_cut_at_every_place() {
    let net = chain(&ALL_TYPES);
    let (mut tried, mut ended) = (0, 0);
    for frame in frames() {
        for marked in 0..frame.len() {
            let mut line = Line::unmarked(&frame);
            line.marks[marked] = 1;
            for cut in 0..=frame.len() {
                let mut twins = Twins::of(&net);
                twins.cut(&line, &[cut]);
                twins.buffer(&Line::unmarked(&frame_bytes(2, 3, &[0x1F])));
                tried += 1;
                ended += twins.frames;
            }
        }
    }
    // all but those whose header is marked
    assert!(ended > tried, "{ended} frames in {tried} lines");
}

/// A mark belongs to its own byte: the frame is damaged from the header's neighbour to the checksum, and no other is.
#[test]
fn marks_of_two_frames_in_one_buffer() {
    let frame = frame_bytes(1, 14, &[]);
    let nothing_marked = [0x00, 0x00, 0x00, 0x00];
    let line = Line::unmarked(&[&frame[..], &frame].concat());
    assert_eq!(in_one_call(&mut chain(&[2]), &line, BUFFER_ROOM_LEN), nothing_marked);
    for marked in 0..line.len() {
        let mut line = line.clone();
        line.marks[marked] = 1;
        let expected: &[u8] = match marked {
            // a marked header opens no frame
            0 | 4 => &[0x00, 0x00],
            1..=3 => &[0x02, 0x02, 0x00, 0x00],
            _ => &[0x00, 0x00, 0x02, 0x02],
        };
        assert_eq!(in_one_call(&mut chain(&[2]), &line, BUFFER_ROOM_LEN), expected, "marked at {marked}");
    }
}

// ---------------------------------------------------------------- long traffic

/// What comes next on the line: frames that somebody hears, whole or damaged, short ones one after another, or anything.
fn next_line(dice: &mut Dice, network: &Network) -> Line {
    match dice.below(8) {
        0..=4 => {
            let frames = 1 + dice.below(6);
            traffic(dice, network, frames)
        }
        5 | 6 => full_buffer(dice, network),
        _ => noise(dice),
    }
}

fn any_list(dice: &mut Dice, network: &Network) -> Vec<u8> {
    network.modules.iter().flat_map(|module| steering::sample(dice, module)).collect()
}

/// Buffers of any cut; between them ticks, byte calls, and buffers of no bytes.
fn any_cut(dice: &mut Dice, twins: &mut Twins, line: &Line) {
    let mut at = 0;
    while at < line.len() {
        let left = (line.len() - at).min(BUFFER_LEN);
        let count = if dice.percent(30) { left } else { dice.below(left + 1) };
        twins.buffer(&line.part(at, count));
        at += count;
        if at < line.len() && dice.percent(15) {
            twins.byte(&line.part(at, 1));
            at += 1;
        }
        if dice.percent(15) {
            let list = any_list(dice, &twins.network());
            twins.tick(&list);
        }
    }
}

#[test]
fn long_traffic_is_what_single_calls_make_of_it() {
    let (mut frames, mut replied, mut most_in_one) = (0, 0, 0);
    for seed in 0..300 {
        let mut dice = Dice::new(seed);
        let types = steering::types(&mut dice);
        let mut twins = Twins::of(&if dice.percent(70) { chain(&types) } else { power_up(&types) });
        for _ in 0..40 {
            let line = next_line(&mut dice, &twins.network());
            any_cut(&mut dice, &mut twins, &line);
        }
        frames += twins.frames;
        replied += twins.replied;
        most_in_one = most_in_one.max(twins.most_in_one);
    }
    assert!(frames > 40_000 && replied > 150_000, "{frames} frames, {replied} bytes replied");
    assert_eq!(most_in_one, BUFFER_FRAMES);
}

/// Whatever a record holds, if only it passes the list.
#[test]
fn any_record_takes_a_buffer_as_single_calls() {
    let mut frames = 0;
    for seed in 0..1000 {
        let mut dice = Dice::new(seed);
        let mut twins = Twins::of(&steering::any_record(&mut dice));
        for _ in 0..4 {
            let line = next_line(&mut dice, &twins.network());
            any_cut(&mut dice, &mut twins, &line);
        }
        frames += twins.frames;
    }
    assert!(frames > 10_000, "{frames} frames");
}

// ---------------------------------------------------------------- by hand

#[test]
fn two_set_addresses_in_one_buffer() {
    let mut net = power_up(&[2, 2, 2]);
    let line = Line::unmarked(&[0xAA, 0x00, 0x21, 0x01, 0xFF, 0x21, 0xAA, 0x00, 0x21, 0x02, 0xFF, 0x22]);
    assert_eq!(in_one_call(&mut net, &line, BUFFER_ROOM_LEN), [0, 0, 0, 0], "each by the module that it touched");
    // individual, group, leader, ADDR_OUT low, cause
    assert_eq!(net[slot(0) + 1..slot(0) + 6], [1, 255, 0, 1, 0]);
    assert_eq!(net[slot(1) + 1..slot(1) + 6], [2, 255, 0, 1, 0]);
    assert_eq!(net[slot(2) + 1..slot(2) + 6], [0, 255, 0, 0, 0], "nobody has addressed it");
}

#[test]
fn chain_of_ten_is_addressed_by_one_buffer() {
    let frames: Vec<u8> = (1..=10).flat_map(|address| frame_bytes(0, 1, &[address, 0xFF])).collect();
    let mut net = power_up(&[0, 2, 3, 0, 2, 3, 0, 2, 3, 0, 2]);
    let replied = in_one_call(&mut net, &Line::unmarked(&frames), BUFFER_ROOM_LEN);
    // servos have their error bit set and move done, the others nothing
    let status = [0x11, 0x00, 0x00, 0x11, 0x00, 0x00, 0x11, 0x00, 0x00, 0x11];
    assert_eq!(replied, status.map(|status| [status, status]).concat());
    for place in 0..10 {
        assert_eq!(net[slot(place) + 1..slot(place) + 5], [place as u8 + 1, 255, 0, 1], "place {place}");
    }
    assert_eq!(net[slot(10) + 1], 0);
}

#[test]
fn hard_reset_in_a_buffer_disables_who_stands_behind() {
    let mut net = chain(&[2, 2]);
    let (no_op, type_and_version) =
        (|address| frame_bytes(address, 14, &[]), |address| frame_bytes(address, 3, &[0x20]));
    let line = [no_op(2), frame_bytes(1, 15, &[]), type_and_version(2), no_op(1), type_and_version(0)].concat();
    // the first by place 1, the last by place 0 at its new address
    assert_eq!(in_one_call(&mut net, &Line::unmarked(&line), BUFFER_ROOM_LEN), [0, 0, 0, 2, 1, 3]);
    assert_eq!((net[slot(0) + 1], net[slot(1) + 1]), (0, 2), "place 1 keeps its address, but is not enabled");
}

#[test]
fn servo_loaded_started_and_stopped_in_one_buffer() {
    // trapezoid to 5000 with velocity 10 and acceleration 1 counts a tick
    let load = frame_bytes(1, 4, &[0x17, 0x88, 0x13, 0, 0, 0, 0, 10, 0, 0, 0, 1, 0]);
    let (start, abrupt) = (frame_bytes(1, 5, &[]), frame_bytes(1, 7, &[0x05]));
    let gains = frame_bytes(1, 6, &[0, 1, 0, 0, 0, 0, 0, 0, 200, 0, 0xFF, 0x3F, 1, 0, 1]);
    let mut net = chain(&[0]);
    // move done and power good; on the way move done is clear
    let replied = in_one_call(&mut net, &Line::unmarked(&[&gains[..], &load, &start].concat()), BUFFER_ROOM_LEN);
    assert_eq!(replied, [0x09, 0x09, 0x09, 0x09, 0x08, 0x08]);
    assert_eq!(outputs(&net, 0), [0; 8], "the amplifier bit is clear");

    let mut net = chain(&[0]);
    let all = [&gains[..], &load, &start, &abrupt].concat();
    let replied = in_one_call(&mut net, &Line::unmarked(&all), BUFFER_ROOM_LEN);
    assert_eq!(replied, [0x09, 0x09, 0x09, 0x09, 0x08, 0x08, 0x09, 0x09]);
    for _ in 0..3 {
        assert_eq!(Library.tick(&mut net, &servo_sample(1000, 1, 0, 0)), DONE);
        assert_eq!(outputs(&net, 0), [0, 0, 1, 0, 0, 0, 0, 0], "held where it is, the amplifier on");
    }
    assert_eq!(send(&mut net, &start), [0x0B, 0x0B], "no load waits any more");
}

#[test]
fn stepper_loaded_started_and_stopped_in_one_buffer() {
    // speed 10, T 3; its minimum is 5
    let (load, start, abrupt) = (frame_bytes(1, 4, &[0x06, 10, 3]), frame_bytes(1, 5, &[]), frame_bytes(1, 7, &[0x05]));
    let mut net = chain(&[3]);
    let replied = in_one_call(&mut net, &Line::unmarked(&[&load[..], &start].concat()), BUFFER_ROOM_LEN);
    assert_eq!(replied, [0x00, 0x00, 0x01, 0x01]);
    assert_eq!(outputs(&net, 0), [5, 0, 0, 0, 0, 0, 0, 0]);

    let mut net = chain(&[3]);
    let all = [&load[..], &start, &abrupt, &start].concat();
    let replied = in_one_call(&mut net, &Line::unmarked(&all), BUFFER_ROOM_LEN);
    assert_eq!(replied, [0x00, 0x00, 0x01, 0x01, 0x00, 0x00, 0x02, 0x02], "the last start has nothing to start");
    assert_eq!(outputs(&net, 0), [0, 0, 1, 0, 0, 0, 0, 0]);
}

#[test]
fn replies_of_several_frames_stand_in_their_order() {
    let mut net = chain(&ALL_TYPES);
    // type and version; the group has no leader, and 77 nobody is
    let asked = |address| frame_bytes(address, 3, &[0x20]);
    let line = [asked(3), asked(1), asked(0xFF), asked(2), asked(77), asked(1)].concat();
    let [servo, io, stepper] = [[0x09, 0, 10, 0x13], [0x00, 2, 1, 0x03], [0x00, 3, 1, 0x04]];
    let expected = [stepper, servo, io, servo].concat();
    assert_eq!(in_one_call(&mut net, &Line::unmarked(&line), BUFFER_ROOM_LEN), expected);
}

// ---------------------------------------------------------------- as much as there can be

/// 32 modules of a type at address 5 with every item defined.
fn all_at_one_address(module_type: u8) -> Vec<u8> {
    let mut net = power_up(&[module_type; MOST_MODULES]);
    for _ in 0..MOST_MODULES {
        send(&mut net, &frame_bytes(0, 1, &[5, 0xFF]));
    }
    assert_eq!(send(&mut net, &frame_bytes(5, 2, &[0xFF])).len(), ROOM_LEN, "all reply with all items");
    net
}

/// No Op to address 5, over and over.
fn short_frames(len: usize) -> Line {
    let frame = [0xAA, 0x05, 0x0E, 0x13];
    Line::unmarked(&frame.iter().copied().cycle().take(len).collect::<Vec<u8>>())
}

#[test]
fn sixteen_frames_fill_the_room() {
    assert_eq!((BUFFER_LEN, BUFFER_FRAMES, ROOM_LEN, BUFFER_ROOM_LEN), (64, 16, 608, 9728));
    for module_type in [0, 2] {
        let net = all_at_one_address(module_type);
        // the first frame's bytes but for the last, the buffer, and the last of a seventeenth
        let line = short_frames(3 + BUFFER_LEN + 1);
        for begun_by_buffer in [false, true] {
            let mut twins = Twins::of(&net);
            let begun = line.part(0, 3);
            if begun_by_buffer {
                twins.buffer(&begun);
            } else {
                twins.byte(&begun);
            }
            twins.buffer(&line.part(3, BUFFER_LEN));
            assert_eq!((twins.frames, twins.replied), (16, 9728));
            assert_eq!(twins.buffered[FILL], 3, "the seventeenth is open");
            twins.buffer(&line.part(3 + BUFFER_LEN, 1));
            assert_eq!((twins.frames, twins.replied), (17, 17 * 608));
        }
    }
}

#[test]
fn sixteen_whole_frames_fill_the_room_too() {
    for module_type in [0, 2] {
        let mut net = all_at_one_address(module_type);
        let one = send(&mut net, &short_frames(SHORTEST_FRAME).bytes);
        assert_eq!(in_one_call(&mut net, &short_frames(BUFFER_LEN), BUFFER_ROOM_LEN), one.repeat(16));
        // damaged frames draw as much
        let mut damaged = short_frames(BUFFER_LEN);
        damaged.marks.iter_mut().skip(3).step_by(SHORTEST_FRAME).for_each(|mark| *mark = 1);
        assert_eq!(in_one_call(&mut net, &damaged, BUFFER_ROOM_LEN + 1).len(), BUFFER_ROOM_LEN);
    }
}

#[test]
fn one_byte_of_room_less_is_refused_where_all_is_needed() {
    for module_type in [0, 2] {
        let mut net = all_at_one_address(module_type);
        let line = short_frames(3 + BUFFER_LEN);
        send(&mut net, &line.bytes[..3]);
        let before = net.clone();
        let buffer = line.part(3, BUFFER_LEN);
        let (mut room, mut written) = (junk(BUFFER_ROOM_LEN - 1), 77);
        let number = Library.bytes(&mut net, &buffer.bytes, &buffer.marks, &mut room, &mut written);
        assert_eq!((number, written), (SHORT_ROOM, 0));
        assert_eq!((net, room), (before, junk(BUFFER_ROOM_LEN - 1)));
    }
}

// ---------------------------------------------------------------- nothing

#[test]
fn buffer_of_no_bytes_changes_nothing() {
    let none = Line::default();
    for types in [&[0][..], &[2], &[3], &ALL_TYPES, &[0; 32]] {
        let idle = chain(types);
        let mut open = idle.clone();
        send(&mut open, &frame_bytes(1, 6, &[0; 15])[..7]);
        let mut marked = open.clone();
        marked[MARK] = 1;
        assert_eq!((idle[FILL], open[FILL]), (0, 7));
        for net in [idle, open, marked] {
            let mut after = net.clone();
            assert_eq!(in_one_call(&mut after, &none, BUFFER_ROOM_LEN), []);
            assert_eq!(after, net);
        }
    }
}

/// Bytes outside of frames: what stands in the record stays, also beyond the chain.
#[test]
fn buffer_of_bytes_that_belong_to_no_frame_changes_nothing() {
    let mut net = chain(&ALL_TYPES);
    net[slot(3)..].fill(0xFF);
    let mut line = Line::unmarked(&[0x55; BUFFER_LEN]);
    line.bytes[9] = 0xAA;
    line.marks[9] = 1;
    let before = net.clone();
    assert_eq!(in_one_call(&mut net, &line, BUFFER_ROOM_LEN), []);
    assert_eq!(net, before);
    assert_eq!(net[COUNT], 3);
}
