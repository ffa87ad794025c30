//! The two calls of the line monitor's text, which have no record.

use super::refuse;
use crate::branches::{reach, Branch};
use crate::calls::*;
use crate::model;
use crate::slips::Slip;

/// A refused call leaves the room as it is, but for a slip.
fn leave(room: &mut [u8], slip: Slip) {
    if let (Slip::TextRoomWhenRefused, Some(first)) = (slip, room.first_mut()) {
        *first ^= 1;
    }
}

fn put(output: &[u8], room: &mut [u8], slip: Slip) -> usize {
    room[..output.len()].copy_from_slice(output);
    if slip == Slip::TextRoomBehind {
        room[output.len()..].fill(0);
    }
    output.len()
}

pub fn import_text(text: &[u8], room: &mut [u8], written: &mut usize, offset: &mut usize, slip: Slip) -> u32 {
    let refused = usize::from(slip == Slip::TextLengthWhenRefused);
    (*written, *offset) = (refused, 0);
    let imported = model::import(text, slip);
    // what the text would take if all of it were good
    let most = text.split(|character| b" \n".contains(character)).filter(|word| !word.is_empty()).count() * 3;
    match imported {
        Err(_) if room.len() < most && slip == Slip::ImportRoomFirst => SHORT_ROOM,
        Err(fault) => {
            if room.len() < most {
                reach(Branch::ImportTextBeforeRoom);
            }
            leave(room, slip);
            *offset = fault;
            BAD_TEXT
        }
        Ok(records) if room.len() < records.len() || room.len() < text.len() && slip == Slip::ImportRoomOfText => {
            leave(room, slip);
            *offset = if slip == Slip::ImportOffsetWhenShort { text.len() } else { 0 };
            refuse(Branch::ImportRoom, SHORT_ROOM)
        }
        Ok(records) => {
            *offset = if slip == Slip::ImportOffsetWhenDone { text.len() } else { 0 };
            *written = put(&records, room, slip);
            DONE
        }
    }
}

pub fn export_text(records: &[u8], room: &mut [u8], written: &mut usize, slip: Slip) -> u32 {
    *written = usize::from(slip == Slip::TextLengthWhenRefused);
    let short = room.len() < records.len();
    let text = match model::export(records, slip) {
        Some(text) => text,
        None if short && slip == Slip::ExportRoomFirst => return SHORT_ROOM,
        None => {
            if short {
                reach(Branch::ExportRecordsBeforeRoom);
            }
            leave(room, slip);
            return BAD_RECORDS;
        }
    };
    let least = if slip == Slip::ExportRoomOf4 { records.len() / 3 * 4 } else { text.len() };
    if room.len() < least.max(text.len()) {
        leave(room, slip);
        return refuse(Branch::ExportRoom, SHORT_ROOM);
    }
    *written = put(&text, room, slip);
    DONE
}
