//! The exported calls as a Rust trait, and the samples that a tick's list is made of: the library has the calls through
//! C, the model in `record`.

use crate::record::{SLOTS, SLOT_LEN};

pub const MOST_MODULES: usize = 32;
/// Status, the most that its items have, and the checksum.
pub const REPLY_LEN: usize = 19;
pub const NET_LEN: usize = SLOTS + MOST_MODULES * SLOT_LEN;
pub const ROOM_LEN: usize = MOST_MODULES * REPLY_LEN;
pub const SAMPLE_LEN: usize = 10;
/// Header, address, command and checksum.
pub const SHORTEST_FRAME: usize = 4;
/// The most line bytes of one buffer.
pub const BUFFER_LEN: usize = 64;
/// Frames that can end in it: one left over from before may end with its first byte, then come the shortest.
pub const BUFFER_FRAMES: usize = 1 + (BUFFER_LEN - 1) / SHORTEST_FRAME;
pub const BUFFER_ROOM_LEN: usize = BUFFER_FRAMES * ROOM_LEN;

pub const DONE: u32 = 0;
pub const UNDAMAGED: u32 = 1;
pub const DAMAGED: u32 = 2;
pub const BAD_CHAIN: u32 = 11;
pub const BAD_TYPE: u32 = 12;
pub const BAD_PLACE: u32 = 13;
pub const BAD_FIELD: u32 = 14;
pub const SHORT_ROOM: u32 = 15;
pub const BAD_RECORD: u32 = 16;
pub const BAD_FRAME: u32 = 17;
pub const BAD_LENGTH: u32 = 18;
pub const BAD_SUM: u32 = 19;
pub const BAD_LIST: u32 = 20;
pub const BAD_TEXT: u32 = 21;
pub const BAD_RECORDS: u32 = 22;

/// What one module measures, as it stands in a tick's list.
pub type Sample = [u8; SAMPLE_LEN];

/// A servo's sample, whose limit inputs are 0 to 3; what it does not use is 0.
pub fn servo_sample(raw: u32, power: u8, ad: u8, inputs: u8) -> Sample {
    let [raw0, raw1, raw2, raw3] = raw.to_le_bytes();
    [0, power, ad, raw0, raw1, raw2, raw3, inputs, 0, 0]
}

pub fn io_sample(inputs: u16, ad: [u8; 3], counter: u32) -> Sample {
    let [low, high] = inputs.to_le_bytes();
    let [counter0, counter1, counter2, counter3] = counter.to_le_bytes();
    [2, low, high, ad[0], ad[1], ad[2], counter0, counter1, counter2, counter3]
}

/// A step-motor module's, whose stop input is 0 or 1; what it does not use is 0.
pub fn stepper_sample(stop: u8) -> Sample {
    [3, stop, 0, 0, 0, 0, 0, 0, 0, 0]
}

/// The sample of a module that has measured nothing yet.
pub fn no_sample(module_type: u8) -> Sample {
    [module_type, 0, 0, 0, 0, 0, 0, 0, 0, 0]
}

pub trait Calls {
    fn setup(&self, net: &mut [u8], types: &[u8]) -> u32;
    fn byte(&self, net: &mut [u8], mark: u32, byte: u8, room: &mut [u8], written: &mut usize) -> u32;
    /// A whole buffer, each byte with its mark.
    fn bytes(&self, net: &mut [u8], bytes: &[u8], marks: &[u8], room: &mut [u8], written: &mut usize) -> u32;
    fn tick(&self, net: &mut [u8], samples: &[u8]) -> u32;
    fn outputs(&self, net: &[u8], place: u32, outputs: &mut [u8; 8]) -> u32;
    fn cause(&self, net: &[u8], place: u32, cause: &mut u8) -> u32;
    fn write_frame(&self, address: u32, code: u32, data: &[u8], room: &mut [u8], written: &mut usize) -> u32;
    fn read_status(&self, module_type: u32, items: u8, reply: &[u8], reading: &mut [u8; 33]) -> u32;
    /// A text of the line monitor as records of line bytes.
    fn import_text(&self, text: &[u8], room: &mut [u8], written: &mut usize, offset: &mut usize) -> u32;
    fn export_text(&self, records: &[u8], room: &mut [u8], written: &mut usize) -> u32;
}
