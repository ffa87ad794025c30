//! The library itself, through the C calling convention. The declarations repeat include/doljurven.h; every slice is
//! handed over as its pointer and its own length, so the wrappers are safe for any input.

use crate::calls::Calls;

extern "C" {
    fn nmc_setup(net: *mut u8, net_len: usize, types: *const u8, chain: usize) -> u32;
    fn nmc_byte(
        net: *mut u8,
        net_len: usize,
        mark: u32,
        byte: u8,
        room: *mut u8,
        room_len: usize,
        written: *mut usize,
    ) -> u32;
    fn nmc_bytes(
        net: *mut u8,
        net_len: usize,
        bytes: *const u8,
        bytes_len: usize,
        marks: *const u8,
        marks_len: usize,
        room: *mut u8,
        room_len: usize,
        written: *mut usize,
    ) -> u32;
    fn nmc_tick(net: *mut u8, net_len: usize, samples: *const u8, samples_len: usize) -> u32;
    fn nmc_outputs(net: *const u8, net_len: usize, place: u32, outputs: *mut u8) -> u32;
    fn nmc_cause(net: *const u8, net_len: usize, place: u32, cause: *mut u8) -> u32;
    fn nmc_write_frame(
        address: u32,
        code: u32,
        data: *const u8,
        data_len: usize,
        room: *mut u8,
        room_len: usize,
        written: *mut usize,
    ) -> u32;
    fn nmc_read_status(module_type: u32, items: u8, reply: *const u8, reply_len: usize, reading: *mut u8) -> u32;
    fn nmc_import_text(
        text: *const u8,
        text_len: usize,
        room: *mut u8,
        room_len: usize,
        written: *mut usize,
        offset: *mut usize,
    ) -> u32;
    fn nmc_export_text(
        records: *const u8,
        records_len: usize,
        room: *mut u8,
        room_len: usize,
        written: *mut usize,
    ) -> u32;
}

#[derive(Clone, Copy)]
pub struct Library;

impl Calls for Library {
    fn setup(&self, net: &mut [u8], types: &[u8]) -> u32 {
        unsafe { nmc_setup(net.as_mut_ptr(), net.len(), types.as_ptr(), types.len()) }
    }

    fn byte(&self, net: &mut [u8], mark: u32, byte: u8, room: &mut [u8], written: &mut usize) -> u32 {
        unsafe { nmc_byte(net.as_mut_ptr(), net.len(), mark, byte, room.as_mut_ptr(), room.len(), written) }
    }

    fn bytes(&self, net: &mut [u8], bytes: &[u8], marks: &[u8], room: &mut [u8], written: &mut usize) -> u32 {
        let (net, net_len) = (net.as_mut_ptr(), net.len());
        let (room, room_len) = (room.as_mut_ptr(), room.len());
        unsafe {
            nmc_bytes(net, net_len, bytes.as_ptr(), bytes.len(), marks.as_ptr(), marks.len(), room, room_len, written)
        }
    }

    fn tick(&self, net: &mut [u8], samples: &[u8]) -> u32 {
        unsafe { nmc_tick(net.as_mut_ptr(), net.len(), samples.as_ptr(), samples.len()) }
    }

    fn outputs(&self, net: &[u8], place: u32, outputs: &mut [u8; 8]) -> u32 {
        unsafe { nmc_outputs(net.as_ptr(), net.len(), place, outputs.as_mut_ptr()) }
    }

    fn cause(&self, net: &[u8], place: u32, cause: &mut u8) -> u32 {
        unsafe { nmc_cause(net.as_ptr(), net.len(), place, cause) }
    }

    fn write_frame(&self, address: u32, code: u32, data: &[u8], room: &mut [u8], written: &mut usize) -> u32 {
        unsafe { nmc_write_frame(address, code, data.as_ptr(), data.len(), room.as_mut_ptr(), room.len(), written) }
    }

    fn read_status(&self, module_type: u32, items: u8, reply: &[u8], reading: &mut [u8; 33]) -> u32 {
        unsafe { nmc_read_status(module_type, items, reply.as_ptr(), reply.len(), reading.as_mut_ptr()) }
    }

    fn import_text(&self, text: &[u8], room: &mut [u8], written: &mut usize, offset: &mut usize) -> u32 {
        unsafe { nmc_import_text(text.as_ptr(), text.len(), room.as_mut_ptr(), room.len(), written, offset) }
    }

    fn export_text(&self, records: &[u8], room: &mut [u8], written: &mut usize) -> u32 {
        unsafe { nmc_export_text(records.as_ptr(), records.len(), room.as_mut_ptr(), room.len(), written) }
    }
}
