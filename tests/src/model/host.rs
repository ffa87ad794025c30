//! The host's side: the frame writer and the status reader.

use super::line::{sum, HEADER};
use super::station::Device;
use super::stepper::Stepper;
use crate::branches::{reach, Branch};
use crate::calls::{BAD_LENGTH, BAD_SUM, BAD_TYPE};
use crate::slips::Slip;

/// The writer's bytes; the caller has looked at the ranges.
pub fn frame_bytes(address: u8, code: u8, data: &[u8]) -> Vec<u8> {
    let mut bytes = vec![HEADER, address, (data.len() as u8) << 4 | code];
    bytes.extend(data);
    bytes.push(sum(&bytes[1..]));
    bytes
}

/// How many bytes each status item has.
pub fn item_sizes(module_type: u32) -> Option<[usize; 8]> {
    match module_type {
        0 => Some([4, 1, 2, 1, 4, 2, 2, 1]),
        2 => Some([2, 1, 1, 1, 4, 2, 2, 4]),
        3 => Some([4, 0, 0, 0, 0, 2, 0, 0]),
        _ => None,
    }
}

/// Status items that a type has, by their bits.
pub fn items_of(module_type: u32) -> u8 {
    if module_type == u32::from(Stepper::TYPE) {
        Stepper::ITEMS
    } else {
        0xFF
    }
}

#[derive(Clone, Debug, PartialEq, Eq)]
pub struct Reading {
    pub status: u8,
    pub numbers: [u32; 8],
}

pub fn read_status(module_type: u32, items: u8, reply: &[u8], slip: Slip) -> Result<Reading, u32> {
    let sizes = item_sizes(module_type).ok_or_else(|| {
        reach(Branch::ReaderType);
        BAD_TYPE
    })?;
    let chosen = |bit: &usize| items >> bit & 1 == 1;
    let length = 2 + (0..8).filter(chosen).map(|bit| sizes[bit]).sum::<usize>();
    if items & !items_of(module_type) != 0 && slip != Slip::ReaderLeavesItemsOut {
        reach(if reply.len() == length { Branch::ReaderItems } else { Branch::ReaderItemsAndLength });
        return Err(BAD_LENGTH);
    }
    if reply.len() != length {
        reach(Branch::ReaderLength);
        return Err(BAD_LENGTH);
    }
    let (told, summed) = reply.split_last().expect("two bytes at least");
    if *told != sum(summed) {
        reach(Branch::ReaderSum);
        return Err(BAD_SUM);
    }
    reach(match module_type {
        0 => Branch::ReaderServo,
        2 => Branch::ReaderIo,
        _ => Branch::ReaderStepper,
    });
    let mut numbers = [0; 8];
    let mut rest = &summed[1..];
    for bit in (0..8).filter(chosen) {
        let (item, after) = rest.split_at(sizes[bit]);
        numbers[bit] = item.iter().rev().fold(0, |number, byte| number << 8 | u32::from(*byte));
        rest = after;
    }
    Ok(Reading { status: reply[0], numbers })
}
