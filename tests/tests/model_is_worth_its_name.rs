//! The differential run can fail: each wrong rule in the model, and each spoiled answer of the library, ends it.

use doljurven_tests::calls::*;
use doljurven_tests::capi::Library;
use doljurven_tests::histories;
use doljurven_tests::record::{latched, slot, CAUSE, COUNT, FILL, ITEMS, LATCHED, SLOTS, SLOT_LEN};
use doljurven_tests::slips::{Slip, CALLS};

const SEED: u64 = 0x0511_0000;
const SESSIONS: usize = 1000;

#[test]
fn without_a_slip_the_short_run_passes() {
    histories::run(&Library, Slip::None, SEED, SESSIONS).unwrap_or_else(|told| panic!("{told}"));
}

#[test]
fn every_slip_is_noticed() {
    assert!(CALLS.len() >= 380);
    let mut missed = Vec::new();
    for (slip, words) in CALLS {
        match histories::run(&Library, *slip, SEED, SESSIONS) {
            Err(told) => println!("{slip:?} ({words}): {}", told.lines().next().unwrap_or("")),
            Ok(_) => missed.push(words),
        }
    }
    assert!(missed.is_empty(), "nobody noticed that {missed:?}");
}

/// The library with one thing done to its answers.
struct Spoiled(Spoil);

#[derive(Clone, Copy, Debug, PartialEq)]
enum Spoil {
    Nothing,
    RoomBehindReplies,
    OneByteMoreReported,
    LastReplyByte,
    PlaceBeyondChain,
    UnusedByteOfSlot,
    ModuleAtTakenByte,
    RefusedLength,
    RefusedRoom,
    RefusedRecord,
    BufferRoomBehindReplies,
    BufferOneByteMoreReported,
    BufferFirstReplyByte,
    BufferLastReplyByte,
    BufferPlaceBeyondChain,
    BufferUnusedByteOfSlot,
    BufferOfNoBytesTaken,
    BufferMarksLost,
    BufferLastByteLost,
    BufferLastByteTwice,
    RefusedBufferLength,
    RefusedBufferRoom,
    RefusedListsRecord,
    RefusedMarksRecord,
    RefusedBufferRoomRecord,
    RefusedLengthLatched,
    RefusedTypeLatched,
    RefusedFieldLatched,
    TickAtUnusedByte,
    FirstSampleForAll,
    LastSampleOfTickBefore,
    StopInputLost,
    StopInputForAll,
    LimitsLost,
    LimitsSwapped,
    OutputsSign,
    OutputsDirection,
    SetupLeavesUnusedBytes,
    OutputsOfPlaceZero,
    OutputsOfLastPlace,
    OutputsInsideFrame,
    OutputsRefuse,
    OutputsWhenRefused,
    CauseOfPlaceZero,
    CauseIsTheItems,
    CauseWhenRefused,
    ReadingWhenRefused,
    WriterBehindFrame,
}

const SPOILS: [Spoil; 47] = [
    Spoil::RoomBehindReplies,
    Spoil::OneByteMoreReported,
    Spoil::LastReplyByte,
    Spoil::PlaceBeyondChain,
    Spoil::UnusedByteOfSlot,
    Spoil::ModuleAtTakenByte,
    Spoil::RefusedLength,
    Spoil::RefusedRoom,
    Spoil::RefusedRecord,
    Spoil::BufferRoomBehindReplies,
    Spoil::BufferOneByteMoreReported,
    Spoil::BufferFirstReplyByte,
    Spoil::BufferLastReplyByte,
    Spoil::BufferPlaceBeyondChain,
    Spoil::BufferUnusedByteOfSlot,
    Spoil::BufferOfNoBytesTaken,
    Spoil::BufferMarksLost,
    Spoil::BufferLastByteLost,
    Spoil::BufferLastByteTwice,
    Spoil::RefusedBufferLength,
    Spoil::RefusedBufferRoom,
    Spoil::RefusedListsRecord,
    Spoil::RefusedMarksRecord,
    Spoil::RefusedBufferRoomRecord,
    Spoil::RefusedLengthLatched,
    Spoil::RefusedTypeLatched,
    Spoil::RefusedFieldLatched,
    Spoil::TickAtUnusedByte,
    Spoil::FirstSampleForAll,
    Spoil::LastSampleOfTickBefore,
    Spoil::StopInputLost,
    Spoil::StopInputForAll,
    Spoil::LimitsLost,
    Spoil::LimitsSwapped,
    Spoil::OutputsSign,
    Spoil::OutputsDirection,
    Spoil::SetupLeavesUnusedBytes,
    Spoil::OutputsOfPlaceZero,
    Spoil::OutputsOfLastPlace,
    Spoil::OutputsInsideFrame,
    Spoil::OutputsRefuse,
    Spoil::OutputsWhenRefused,
    Spoil::CauseOfPlaceZero,
    Spoil::CauseIsTheItems,
    Spoil::CauseWhenRefused,
    Spoil::ReadingWhenRefused,
    Spoil::WriterBehindFrame,
];

/// Beyond what a module of any type uses of slot 0.
const UNUSED: usize = SLOTS + SLOT_LEN - 8;
const LAST: usize = NET_LEN - 1;

impl Spoiled {
    /// What the library's tick is told that the board has measured.
    fn handed_over(&self, net: &[u8], samples: &[u8]) -> Vec<u8> {
        let mut list = samples.to_vec();
        let chain = list.len() / SAMPLE_LEN;
        if net.len() != NET_LEN || !(1..=MOST_MODULES).contains(&chain) {
            return list;
        }
        let (first, last) = (samples[..SAMPLE_LEN].to_vec(), &net[slot(chain - 1)..slot(chain)]);
        let of_stepper = |sample: &[u8]| sample[0] == 3 && sample[1] <= 1;
        let of_servo = |sample: &[u8]| sample[0] == 0 && sample[7] <= 3;
        let stop = samples.chunks_exact(SAMPLE_LEN).any(|sample| of_stepper(sample) && sample[1] == 1);
        for (place, sample) in list.chunks_exact_mut(SAMPLE_LEN).enumerate() {
            match self.0 {
                Spoil::StopInputLost if of_stepper(sample) => sample[1] = 0,
                Spoil::StopInputForAll if of_stepper(sample) => sample[1] = u8::from(stop),
                Spoil::LimitsLost if of_servo(sample) => sample[7] = 0,
                Spoil::LimitsSwapped if of_servo(sample) => sample[7] = sample[7] >> 1 | sample[7] << 1 & 2,
                Spoil::FirstSampleForAll if sample[0] == first[0] => sample.copy_from_slice(&first),
                Spoil::LastSampleOfTickBefore if place == chain - 1 && sample[0] == last[0] => {
                    sample.copy_from_slice(&latched(last));
                }
                _ => {}
            }
        }
        list
    }
}

impl Calls for Spoiled {
    fn setup(&self, net: &mut [u8], types: &[u8]) -> u32 {
        let before = net.to_vec();
        let number = Library.setup(net, types);
        if number == DONE && self.0 == Spoil::SetupLeavesUnusedBytes {
            net[UNUSED] = before[UNUSED];
        }
        number
    }

    fn byte(&self, net: &mut [u8], mark: u32, byte: u8, room: &mut [u8], written: &mut usize) -> u32 {
        let number = Library.byte(net, mark, byte, room, written);
        let ended = number == UNDAMAGED || number == DAMAGED;
        match self.0 {
            Spoil::RoomBehindReplies if ended && *written < room.len() => room[*written] ^= 1,
            Spoil::OneByteMoreReported if ended => *written += 1,
            Spoil::LastReplyByte if ended && *written > 0 => room[*written - 1] ^= 1,
            Spoil::PlaceBeyondChain if ended && net[COUNT] < 32 => net[LAST] ^= 1,
            Spoil::UnusedByteOfSlot if ended => net[UNUSED] ^= 1,
            Spoil::ModuleAtTakenByte if number == DONE => net[26] ^= 1,
            Spoil::RefusedLength if number > DAMAGED => *written = 1,
            Spoil::RefusedRoom if number > DAMAGED && !room.is_empty() => room[0] ^= 1,
            Spoil::RefusedRecord if number == SHORT_ROOM => net[0] ^= 1,
            _ => {}
        }
        number
    }

    fn bytes(&self, net: &mut [u8], bytes: &[u8], marks: &[u8], room: &mut [u8], written: &mut usize) -> u32 {
        let (mut handed, mut handed_marks) = (bytes.to_vec(), marks.to_vec());
        match self.0 {
            Spoil::BufferMarksLost => handed_marks.iter_mut().for_each(|mark| *mark &= 0xFE),
            Spoil::BufferLastByteLost if bytes.len() == marks.len() && bytes.len() <= BUFFER_LEN => {
                handed.pop();
                handed_marks.pop();
            }
            Spoil::BufferLastByteTwice if (1..BUFFER_LEN).contains(&bytes.len()) && bytes.len() == marks.len() => {
                handed.extend_from_within(bytes.len() - 1..);
                handed_marks.extend_from_within(marks.len() - 1..);
            }
            _ => {}
        }
        let number = Library.bytes(net, &handed, &handed_marks, room, written);
        match self.0 {
            Spoil::BufferRoomBehindReplies if number == DONE && *written < room.len() => room[*written] ^= 1,
            Spoil::BufferOneByteMoreReported if number == DONE => *written += 1,
            Spoil::BufferFirstReplyByte if *written > 0 => room[0] ^= 1,
            Spoil::BufferLastReplyByte if *written > 0 => room[*written - 1] ^= 1,
            Spoil::BufferPlaceBeyondChain if number == DONE && net[COUNT] < 32 => net[LAST] ^= 1,
            Spoil::BufferUnusedByteOfSlot if number == DONE => net[UNUSED] ^= 1,
            Spoil::BufferOfNoBytesTaken if number == DONE && bytes.is_empty() => net[UNUSED] ^= 1,
            Spoil::RefusedBufferLength if number != DONE => *written = 1,
            Spoil::RefusedBufferRoom if number != DONE && !room.is_empty() => room[0] ^= 1,
            Spoil::RefusedListsRecord if number == BAD_LIST => net[UNUSED] ^= 1,
            Spoil::RefusedMarksRecord if number == BAD_FIELD => net[UNUSED] ^= 1,
            Spoil::RefusedBufferRoomRecord if number == SHORT_ROOM => net[UNUSED] ^= 1,
            _ => {}
        }
        number
    }

    fn tick(&self, net: &mut [u8], samples: &[u8]) -> u32 {
        let number = Library.tick(net, &self.handed_over(net, samples));
        // of the raw count, an A/D byte, or of a stored position
        let measured = slot(0) + LATCHED + 3;
        match (self.0, number) {
            (Spoil::RefusedLengthLatched, BAD_LIST) => net[measured] ^= 1,
            (Spoil::RefusedTypeLatched, BAD_PLACE) => net[measured] ^= 1,
            (Spoil::RefusedFieldLatched, BAD_FIELD) => net[measured] ^= 1,
            (Spoil::TickAtUnusedByte, DONE) => net[UNUSED] ^= 1,
            _ => {}
        }
        number
    }

    fn outputs(&self, net: &[u8], place: u32, outputs: &mut [u8; 8]) -> u32 {
        let number = Library.outputs(net, place, outputs);
        match self.0 {
            Spoil::OutputsOfPlaceZero if number == DONE => Library.outputs(net, 0, outputs),
            Spoil::OutputsOfLastPlace if place == 31 => {
                outputs[0] ^= 1;
                number
            }
            // an open frame is there only after bytes that end none
            Spoil::OutputsInsideFrame if number == DONE && net[17] != 0 => {
                outputs[0] ^= 1;
                number
            }
            // a record that calls leave behind and that is not taken any more
            Spoil::OutputsRefuse if number == DONE && net[FILL] > 17 => BAD_RECORD,
            // a servo's second byte is a sign, a stepper's a direction
            Spoil::OutputsSign if number == DONE && net[slot(place as usize)] == 0 => {
                outputs[1] = 0;
                number
            }
            Spoil::OutputsDirection if number == DONE && net[slot(place as usize)] == 3 => {
                outputs[1] = 0;
                number
            }
            Spoil::OutputsWhenRefused if number != DONE => {
                *outputs = [0; 8];
                number
            }
            _ => number,
        }
    }

    fn cause(&self, net: &[u8], place: u32, cause: &mut u8) -> u32 {
        let number = Library.cause(net, place, cause);
        match self.0 {
            Spoil::CauseOfPlaceZero if number == DONE => *cause = net[slot(0) + CAUSE],
            Spoil::CauseIsTheItems if number == DONE => *cause = net[slot(place as usize) + ITEMS],
            Spoil::CauseWhenRefused if number != DONE => *cause = 0,
            _ => {}
        }
        number
    }

    fn write_frame(&self, address: u32, code: u32, data: &[u8], room: &mut [u8], written: &mut usize) -> u32 {
        let number = Library.write_frame(address, code, data, room, written);
        if self.0 == Spoil::WriterBehindFrame && *written < room.len() {
            room[*written] ^= 1;
        }
        number
    }

    fn read_status(&self, module_type: u32, items: u8, reply: &[u8], reading: &mut [u8; 33]) -> u32 {
        let number = Library.read_status(module_type, items, reply, reading);
        if number != DONE && self.0 == Spoil::ReadingWhenRefused {
            reading[32] = 1;
        }
        number
    }

    // monitor_text.rs tries the line monitor's text
    fn import_text(&self, text: &[u8], room: &mut [u8], written: &mut usize, offset: &mut usize) -> u32 {
        Library.import_text(text, room, written, offset)
    }

    fn export_text(&self, records: &[u8], room: &mut [u8], written: &mut usize) -> u32 {
        Library.export_text(records, room, written)
    }
}

#[test]
fn every_spoiled_answer_is_noticed() {
    histories::run(&Spoiled(Spoil::Nothing), Slip::None, SEED, SESSIONS).unwrap_or_else(|told| panic!("{told}"));
    for spoil in SPOILS {
        let run = histories::run(&Spoiled(spoil), Slip::None, SEED, SESSIONS);
        assert!(run.is_err(), "nobody noticed {spoil:?}");
    }
}
