//! Histories that the library and the model go through side by side. After every call all that was lent is compared,
//! byte for byte: the number, the record, the room with what lies behind the replies, the length, and the lists, which stay
//! as they were; then whether the record still passes the list, and what the board is to drive.

use std::collections::VecDeque;
use std::fmt;

use crate::branches::{self, uncounted};
use crate::calls::*;
use crate::dice::Dice;
use crate::model::{frame_bytes, item_sizes, items_of, sum, Device, Mode, Module, Network, Servo, Station, Stepper};
use crate::record::{self, decode, latched, slot, Model, COUNT, FILL};
use crate::seen::Seen;
use crate::slips::Slip;
use crate::steering::buffer::{any_buffer, frame_on_line, full_buffer, short_traffic, spoiled_buffer, Line};
use crate::steering::{self, any_record, damaged_record, data_byte, fill_rests, group, individual, spoiled_list};

enum Event {
    Setup(Vec<u8>),
    Record,
    Byte(u32, u8, usize),
    Buffer(Line, usize),
    Tick(Vec<u8>),
}

impl fmt::Display for Event {
    fn fmt(&self, to: &mut fmt::Formatter) -> fmt::Result {
        match self {
            Event::Setup(types) => write!(to, "setup {types:?}"),
            Event::Record => write!(to, "another record"),
            Event::Byte(mark, byte, room_len) => write!(to, "byte {byte:02X}, mark {mark}, room {room_len}"),
            Event::Buffer(line, room_len) => {
                let (len, marks_len) = (line.bytes.len(), line.marks.len());
                write!(to, "{len} bytes, {marks_len} marks, room {room_len}:")?;
                let shown = len.min(BUFFER_LEN + 1);
                write!(to, " {:02X?} {:?}", &line.bytes[..shown], &line.marks[..marks_len.min(shown)])
            }
            Event::Tick(list) => {
                write!(to, "tick, {} bytes:", list.len())?;
                // no chain asks for more
                list.chunks(SAMPLE_LEN).take(MOST_MODULES).try_for_each(|sample| write!(to, " {sample:02X?}"))
            }
        }
    }
}

/// Library and model over one record.
struct Pair<'a> {
    library: &'a dyn Calls,
    model: Model,
    net: Vec<u8>,
    /// Whatever a lent room may hold before a call.
    junk: Vec<u8>,
    turn: usize,
    past: VecDeque<Event>,
    seen: &'a mut Seen,
}

fn apart(library: &[u8], model: &[u8]) -> String {
    let apart = library.iter().zip(model).enumerate().filter(|(_, (library, model))| library != model);
    let mut told: Vec<String> =
        apart.map(|(at, (library, model))| format!("byte {at}: library {library:02X}, model {model:02X}")).collect();
    let more = told.len().saturating_sub(8);
    told.truncate(8);
    format!("{}{}", told.join("; "), if more > 0 { format!("; {more} more") } else { String::new() })
}

impl Pair<'_> {
    fn disagree<T>(&self, what: &str) -> Result<T, String> {
        let past: Vec<String> = self.past.iter().map(Event::to_string).collect();
        Err(format!("{what}\nlast events:\n  {}", past.join("\n  ")))
    }

    fn remember(&mut self, event: Event) {
        if matches!(event, Event::Record) {
            self.seen.another_record();
        }
        if self.past.len() == 40 {
            self.past.pop_front();
        }
        self.past.push_back(event);
    }

    fn same_number(&mut self, library: u32, model: u32) -> Result<u32, String> {
        if library != model {
            return self.disagree(&format!("number: library {library}, model {model}"));
        }
        self.seen.numbers[library as usize] += 1;
        Ok(library)
    }

    fn same_bytes(&self, what: &str, library: &[u8], model: &[u8]) -> Result<(), String> {
        if library != model {
            return self.disagree(&format!("{what}: {}", apart(library, model)));
        }
        Ok(())
    }

    fn room(&mut self, room_len: usize) -> Vec<u8> {
        self.turn += 1;
        let at = self.turn % (self.junk.len() - room_len);
        self.junk[at..at + room_len].to_vec()
    }

    /// What holds after every call: a record that was taken still passes the list, the library takes it too, and the
    /// board drives the same. Of all places, and the one beyond the chain, or else of one in turn; the last cause is
    /// asked for at one in turn.
    fn after(&mut self, taken: bool, everywhere: bool) -> Result<Option<Network>, String> {
        self.turn += 1;
        let network = decode(&self.net, self.model.slip);
        if taken && network.is_none() {
            return self.disagree("the record breaks the list");
        }
        let before = self.net.clone();
        let places = network.as_ref().map_or(1, |network| network.modules.len() as u32 + 1);
        for place in 0..if everywhere { places } else { 1 } {
            self.same_outputs(network.as_ref(), (self.turn as u32 + place) % places)?;
        }
        self.same_cause(network.as_ref(), self.turn as u32 % places)?;
        self.same_bytes("record after outputs and cause", &self.net, &before)?;
        Ok(network)
    }

    fn setup(&mut self, types: &[u8]) -> Result<u32, String> {
        self.remember(Event::Setup(types.to_vec()));
        let mut by_model = self.net.clone();
        let library = self.library.setup(&mut self.net, types);
        let model = self.model.setup(&mut by_model, types);
        let number = self.same_number(library, model)?;
        self.same_bytes("record", &self.net, &by_model)?;
        self.after(number == DONE, true)?;
        Ok(number)
    }

    fn byte(&mut self, mark: u32, byte: u8, room_len: usize) -> Result<u32, String> {
        self.remember(Event::Byte(mark, byte, room_len));
        self.seen.bytes += 1;
        let before = self.net.clone();
        let mut by_model = before.clone();
        let mut room = self.room(room_len);
        let mut model_room = room.clone();
        let (mut written, mut model_written) = (self.turn, 0);
        let library = self.library.byte(&mut self.net, mark, byte, &mut room, &mut written);
        let model = self.model.byte(&mut by_model, mark, byte, &mut model_room, &mut model_written);
        let number = self.same_number(library, model)?;
        if written != model_written {
            return self.disagree(&format!("written: library {written}, model {model_written}"));
        }
        self.same_bytes("room", &room, &model_room)?;
        self.same_bytes("record", &self.net, &by_model)?;
        if number == DONE && self.net[COUNT..] != before[COUNT..] {
            return self.disagree("a byte that ended no frame reached beyond the receiver");
        }
        let ended = number == UNDAMAGED || number == DAMAGED;
        let after = self.after(number != BAD_RECORD, ended)?;
        if let (true, Some(before), Some(after)) = (ended, decode(&before, self.model.slip), after) {
            self.seen.frame(&before, &after, written);
        }
        if number <= DAMAGED {
            self.seen.buffers.byte(before[FILL], self.net[FILL]);
        }
        Ok(number)
    }

    fn buffer(&mut self, line: &Line, room_len: usize) -> Result<u32, String> {
        self.remember(Event::Buffer(line.clone(), room_len));
        let before = self.net.clone();
        let mut by_model = before.clone();
        let Line { bytes, marks } = line.clone();
        let mut room = self.room(room_len);
        let mut model_room = room.clone();
        let (mut written, mut model_written) = (self.turn, 0);
        let library = self.library.bytes(&mut self.net, &bytes, &marks, &mut room, &mut written);
        let model = self.model.bytes(&mut by_model, &line.bytes, &line.marks, &mut model_room, &mut model_written);
        let number = self.same_number(library, model)?;
        if written != model_written {
            return self.disagree(&format!("written: library {written}, model {model_written}"));
        }
        self.same_bytes("room", &room, &model_room)?;
        self.same_bytes("record", &self.net, &by_model)?;
        self.same_bytes("bytes", &bytes, &line.bytes)?;
        self.same_bytes("marks", &marks, &line.marks)?;
        let network = if number == DONE { decode(&before, self.model.slip) } else { None };
        let ended = network.map_or(0, |network| self.seen.buffer(&network, &bytes, &marks, written));
        if ended == 0 && self.net.get(COUNT..) != before.get(COUNT..) {
            return self.disagree("a buffer that ended no frame reached beyond the receiver");
        }
        self.after(number != BAD_RECORD, ended > 0)?;
        Ok(number)
    }

    fn tick(&mut self, list: &[u8]) -> Result<u32, String> {
        self.remember(Event::Tick(list.to_vec()));
        self.seen.ticks += 1;
        let before = self.net.clone();
        let mut by_model = before.clone();
        let lent = list.to_vec();
        let library = self.library.tick(&mut self.net, &lent);
        let model = self.model.tick(&mut by_model, list);
        let number = self.same_number(library, model)?;
        self.same_bytes("record", &self.net, &by_model)?;
        self.same_bytes("list", &lent, list)?;
        let after = self.after(number != BAD_RECORD, true)?;
        if let (DONE, Some(before), Some(after)) = (number, decode(&before, self.model.slip), after) {
            self.seen.tick(&before, &after, list);
        }
        Ok(number)
    }

    /// The calls that only tell of a place: what it drives, and its last cause.
    fn told(&mut self, place: u32) -> Result<u32, String> {
        let network = decode(&self.net, self.model.slip);
        let before = self.net.clone();
        self.same_cause(network.as_ref(), place)?;
        let number = self.same_outputs(network.as_ref(), place)?;
        self.same_bytes("record after outputs and cause", &self.net, &before)?;
        Ok(number)
    }

    fn same_cause(&mut self, network: Option<&Network>, place: u32) -> Result<(), String> {
        let (mut cause, mut model_cause) = (0xC3, 0xC3);
        let library = self.library.cause(&self.net, place, &mut cause);
        let model = self.model.cause_of(network, place, &mut model_cause);
        self.same_number(library, model)?;
        self.same_bytes("cause", &[cause], &[model_cause]).map_err(|told| format!("place {place}: {told}"))
    }

    fn same_outputs(&mut self, network: Option<&Network>, place: u32) -> Result<u32, String> {
        let mut outputs = [0xC3; 8];
        let mut model_outputs = outputs;
        let library = self.library.outputs(&self.net, place, &mut outputs);
        let model = self.model.outputs_of(network, place, &mut model_outputs);
        let number = self.same_number(library, model)?;
        self.same_bytes("outputs", &outputs, &model_outputs).map_err(|told| format!("place {place}: {told}"))?;
        Ok(number)
    }

    fn write_frame(&mut self, address: u32, code: u32, data: &[u8], room_len: usize) -> Result<(), String> {
        self.seen.host_calls += 1;
        let mut room = self.room(room_len);
        let mut model_room = room.clone();
        let (mut written, mut model_written) = (self.turn, 0);
        let library = self.library.write_frame(address, code, data, &mut room, &mut written);
        let model = self.model.write_frame(address, code, data, &mut model_room, &mut model_written);
        let asked = format!("writer: address {address}, code {code}, data {data:X?}, room {room_len}");
        if (library, written) != (model, model_written) {
            return self.disagree(&format!("{asked}: ({library}, {written}), model ({model}, {model_written})"));
        }
        self.seen.numbers[library as usize] += 1;
        self.same_bytes(&asked, &room, &model_room)
    }

    fn read_status(&mut self, module_type: u32, items: u8, reply: &[u8]) -> Result<(), String> {
        self.seen.host_calls += 1;
        let mut reading = [0x3C; 33];
        let mut model_reading = [0; 33];
        let library = self.library.read_status(module_type, items, reply, &mut reading);
        let model = self.model.read_status(module_type, items, reply, &mut model_reading);
        let asked = format!("reader: type {module_type}, items {items:02X}, reply {reply:X?}");
        if library != model {
            return self.disagree(&format!("{asked}: {library}, model {model}"));
        }
        self.seen.numbers[library as usize] += 1;
        self.same_bytes(&asked, &reading, &model_reading)
    }
}

struct Session<'a> {
    pair: Pair<'a>,
    dice: Dice,
    /// What the board has measured anew since the last tick, by place.
    measured: Vec<Option<Sample>>,
}

impl Session<'_> {
    fn room_len(&mut self, least: usize) -> usize {
        if self.dice.percent(50) {
            least
        } else {
            least + self.dice.below(40)
        }
    }

    fn line(&mut self, mark: u32, byte: u8) -> Result<(), String> {
        let room_len = self.room_len(ROOM_LEN);
        self.pair.byte(mark, byte, room_len)?;
        Ok(())
    }

    fn buffer(&mut self, line: &Line) -> Result<(), String> {
        let room_len = self.room_len(BUFFER_ROOM_LEN);
        self.pair.buffer(line, room_len)?;
        Ok(())
    }

    fn chain(&self) -> usize {
        self.pair.net[COUNT].into()
    }

    /// Somewhere the board measures anew.
    fn measure_some(&mut self) {
        let place = self.dice.below(self.chain());
        self.measure(place);
    }

    fn measure(&mut self, place: usize) {
        let module = self.module(place);
        let sample = steering::sample(&mut self.dice, &module);
        self.measured[place] = Some(sample);
    }

    /// The list of the next tick: what was measured anew, and elsewhere what is latched.
    fn list(&mut self) -> Vec<u8> {
        let latched = |place| latched(&self.pair.net[slot(place)..slot(place + 1)]);
        let samples = self.measured.iter().enumerate();
        let mut list: Vec<u8> = samples.flat_map(|(place, anew)| anew.unwrap_or_else(|| latched(place))).collect();
        if self.dice.percent(30) {
            fill_rests(&mut self.dice, &mut list);
        }
        list
    }

    fn tick(&mut self) -> Result<(), String> {
        let list = self.list();
        self.pair.tick(&list)?;
        self.measured.fill(None);
        Ok(())
    }

    /// A tick with this sample at a place.
    fn tick_with(&mut self, place: usize, sample: Sample) -> Result<(), String> {
        self.measured[place] = Some(sample);
        self.tick()
    }

    fn network(&self) -> Network {
        decode(&self.pair.net, Slip::None).expect("a taken record")
    }

    fn module(&self, place: usize) -> Module {
        record::module(&self.pair.net[slot(place)..slot(place + 1)], Slip::None).expect("a taken record")
    }

    fn servo(&self, place: usize) -> Servo {
        match self.module(place) {
            Module::Servo(servo) => *servo,
            Module::Io(_) | Module::Stepper(_) => unreachable!("types stay"),
        }
    }

    fn stepper(&self, place: usize) -> Stepper {
        match self.module(place) {
            Module::Stepper(stepper) => *stepper,
            Module::Servo(_) | Module::Io(_) => unreachable!("types stay"),
        }
    }

    /// A place with a module of this type that hears what it is sent, if there is one.
    fn place_of(&mut self, module_type: u8) -> Result<Option<usize>, String> {
        let network = self.network();
        let places: Vec<usize> =
            (0..network.modules.len()).filter(|place| network.modules[*place].module_type() == module_type).collect();
        if places.is_empty() {
            return Ok(None);
        }
        if network.receiver.fill != 0 {
            self.send(&[0; 16])?;
        }
        Ok(Some(self.dice.pick(&places)))
    }

    /// Where a command goes: to the module alone, but a Start often to its group.
    fn alone_or_group(&mut self, station: &Station, code: u8) -> u8 {
        if code == 5 && self.dice.percent(30) {
            station.group
        } else {
            station.individual
        }
    }

    /// Puts a step-motor module to work: commands at every point of a motion, each with some ticks.
    fn drive_stepper(&mut self) -> Result<(), String> {
        let place = match self.place_of(Stepper::TYPE)? {
            Some(place) => place,
            None => return self.send_frame(),
        };
        for _ in 0..3 + self.dice.below(6) {
            let stepper = self.stepper(place);
            let (code, data) = steering::stepper::command(&mut self.dice, &stepper);
            let address = self.alone_or_group(&stepper.station, code);
            self.send(&frame_bytes(address, code, &data))?;
            let ticks = self.dice.pick(&[0, 1, 1, 1, 2, 3, 8]);
            for _ in 0..ticks {
                self.measure(place);
                self.tick()?;
            }
        }
        Ok(())
    }

    /// Puts a servo to work: loads, starts and stops, each with ticks in which the motor follows.
    fn drive(&mut self) -> Result<(), String> {
        let place = match self.place_of(Servo::TYPE)? {
            Some(place) => place,
            None => return self.send_frame(),
        };
        for step in 0..2 + self.dice.below(4) {
            self.make_fit(place, step == 0)?;
            let (code, data) = self.next_command(place)?;
            let address = self.servo(place).station.individual;
            self.send(&frame_bytes(address, code, &data))?;
            if code == 4 && self.dice.percent(70) {
                let address = self.alone_or_group(&self.servo(place).station, 5);
                self.send(&frame_bytes(address, 5, &[]))?;
            }
            let ticks = self.dice.pick(&[0, 1, 1, 2, 3, 8, 30]);
            for _ in 0..ticks {
                self.measure(place);
                self.tick()?;
            }
        }
        Ok(())
    }

    /// Has a servo look for home: brought into some mode it is told what to watch, often with a load waiting, and after
    /// some ticks a switch changes, and often back again.
    fn drive_home(&mut self) -> Result<(), String> {
        let place = match self.place_of(Servo::TYPE)? {
            Some(place) => place,
            None => return self.send_frame(),
        };
        for _ in 0..1 + self.dice.below(3) {
            self.make_fit(place, true)?;
            let servo = self.servo(place);
            let address = servo.station.individual;
            let (code, data) = steering::into_a_mode(&mut self.dice, &servo);
            self.send(&frame_bytes(address, code, &data))?;
            self.follow(place)?;
            let byte = steering::homing_byte(&mut self.dice);
            self.send(&frame_bytes(address, 9, &[byte]))?;
            if self.dice.percent(40) {
                let servo = self.servo(place);
                let data = steering::waiting_load(&mut self.dice, &servo);
                self.send(&frame_bytes(address, 4, &data))?;
            }
            self.follow(place)?;
            self.switch(place)?;
        }
        Ok(())
    }

    /// Some ticks in which the motor follows; now and then the last of them is a dip.
    fn follow(&mut self, place: usize) -> Result<(), String> {
        for _ in 0..self.dice.pick(&[0, 0, 1, 2, 4]) {
            self.measure(place);
            self.tick()?;
        }
        if self.dice.percent(8) {
            let servo = self.servo(place);
            let raw = steering::following(&mut self.dice, &servo);
            self.tick_with(place, servo_sample(raw, 0, 0, servo.latched.inputs))?;
        }
        Ok(())
    }

    /// A tick in which a switch changes, and often one in which it changes back.
    fn switch(&mut self, place: usize) -> Result<(), String> {
        let before = self.servo(place);
        let sample = steering::switched(&mut self.dice, &before);
        self.tick_with(place, sample)?;
        if self.dice.percent(50) {
            let servo = self.servo(place);
            let raw = steering::following(&mut self.dice, &servo);
            self.tick_with(place, servo_sample(raw, 1, 0, before.latched.inputs))?;
        }
        Ok(())
    }

    /// Mostly brings power, gains and a clear error bit to a servo.
    fn make_fit(&mut self, place: usize, gains_too: bool) -> Result<(), String> {
        let servo = self.servo(place);
        let address = servo.station.individual;
        if servo.latched.power != 1 && self.dice.percent(90) {
            let (raw, ad) = (steering::following(&mut self.dice, &servo), self.dice.byte());
            self.tick_with(place, servo_sample(raw, 1, ad, servo.latched.inputs))?;
        }
        if gains_too && servo.gains.el < 1000 && self.dice.percent(80) {
            let gains = steering::gains(&mut self.dice);
            self.send(&frame_bytes(address, 6, &gains))?;
        }
        if servo.error && self.dice.percent(90) {
            self.send(&frame_bytes(address, 11, &[]))?;
        }
        Ok(())
    }

    /// Any command, or a trapezoid for a servo that has come to rest without going off.
    fn next_command(&mut self, place: usize) -> Result<(u8, Vec<u8>), String> {
        if !self.servo(place).servo_off() && self.dice.percent(30) {
            self.settle(place)?;
            let servo = self.servo(place);
            return Ok((4, steering::load(&mut self.dice, &servo, steering::TRAPEZOID)));
        }
        let servo = self.servo(place);
        Ok(steering::servo_command(&mut self.dice, &servo))
    }

    /// Lets a servo come to rest, in velocity mode by a smooth stop; the motor follows exactly.
    fn settle(&mut self, place: usize) -> Result<(), String> {
        let servo = self.servo(place);
        if servo.mode == Mode::Velocity && servo.goal_speed != 0 {
            self.send(&frame_bytes(servo.station.individual, 7, &[9]))?;
        }
        for _ in 0..40 {
            let servo = self.servo(place);
            if servo.speed == 0 && (servo.mode != Mode::Trapezoid || servo.distance() == 0) {
                break;
            }
            let raw = steering::ahead(&servo).wrapping_add(servo.offset);
            self.tick_with(place, servo_sample(raw, 1, 0, servo.latched.inputs))?;
        }
        Ok(())
    }

    fn send(&mut self, bytes: &[u8]) -> Result<(), String> {
        self.hand_over(&Line::unmarked(bytes))
    }

    /// Bytes as the board hands them over: one by one, in buffers as full as can be, or cut anywhere.
    fn hand_over(&mut self, line: &Line) -> Result<(), String> {
        let way = self.dice.below(8);
        let mut at = 0;
        while at < line.len() {
            let left = (line.len() - at).min(BUFFER_LEN);
            let count = match way {
                0..=4 => None,
                5 | 6 => Some(left),
                _ => self.cut(left),
            };
            match count {
                None => self.line(line.marks[at].into(), line.bytes[at])?,
                Some(count) => self.buffer(&line.part(at, count))?,
            }
            at += count.unwrap_or(1);
            // the board measures and ticks whenever it likes
            match self.dice.below(60) {
                0 => self.measure_some(),
                1 => self.tick()?,
                _ => {}
            }
        }
        Ok(())
    }

    /// How many bytes go into the next buffer, if they do.
    fn cut(&mut self, left: usize) -> Option<usize> {
        match self.dice.below(20) {
            0..=4 => None,
            5 => Some(0),
            6..=13 => Some(left.min(1 + self.dice.below(6))),
            _ => Some(1 + self.dice.below(left)),
        }
    }

    /// Brings an open frame to its end, mostly.
    fn leave_frame(&mut self) -> Result<(), String> {
        if self.pair.net[FILL] != 0 && self.dice.percent(70) {
            self.send(&[0; 16])?;
        }
        Ok(())
    }

    fn send_frame(&mut self) -> Result<(), String> {
        self.leave_frame()?;
        let network = self.network();
        let line = frame_on_line(&mut self.dice, &network);
        self.hand_over(&line)
    }

    /// Several frames, cut into two buffers.
    fn send_several(&mut self) -> Result<(), String> {
        self.leave_frame()?;
        let network = self.network();
        let line = full_buffer(&mut self.dice, &network);
        let first = self.dice.below(line.len() + 1);
        self.buffer(&line.part(0, first))?;
        self.buffer(&line.part(first, line.len() - first))
    }

    /// Short frames, as many in one buffer as can end in it.
    fn send_most(&mut self) -> Result<(), String> {
        if self.pair.net[FILL] != 0 {
            self.send(&[0; 16])?;
        }
        let network = self.network();
        let line = short_traffic(&mut self.dice, &network, BUFFER_FRAMES + 1);
        self.first_at_its_last(&line)
    }

    /// Short frames, the first at its last byte when the buffer comes that brings the others.
    fn first_at_its_last(&mut self, line: &Line) -> Result<(), String> {
        let begun = SHORTEST_FRAME - 1;
        let rest = begun + BUFFER_LEN;
        self.hand_over(&line.part(0, begun))?;
        self.buffer(&line.part(begun, BUFFER_LEN))?;
        self.hand_over(&line.part(rest, line.len() - rest))
    }

    fn address_the_chain(&mut self) -> Result<(), String> {
        let mut bytes = Vec::new();
        for place in 0..self.pair.net[COUNT] {
            let own = if self.dice.percent(80) { place + 1 } else { individual(&mut self.dice) };
            let group = if self.dice.percent(50) { 0xFF } else { group(&mut self.dice) };
            bytes.extend(frame_bytes(0, 1, &[own, group]));
        }
        self.send(&bytes)
    }

    /// Calls that are refused, often for two reasons at once.
    fn refused(&mut self) -> Result<(), String> {
        let list = self.list();
        let network = self.network();
        let count = self.chain() as u32;
        let dice = &mut self.dice;
        match dice.below(8) {
            0 => {
                let mark = dice.pick(&[0, 1, 2, 255, 256, u32::MAX]);
                let room_len = dice.pick(&[0, 1, ROOM_LEN - 1, ROOM_LEN]);
                self.pair.byte(mark, data_byte(dice), room_len)?
            }
            1 => {
                let place = dice.pick(&[0, count - 1, count, count + 1, 255, 256, u32::MAX]);
                self.pair.told(place)?
            }
            2..=4 => self.pair.tick(&spoiled_list(dice, &list))?,
            _ => {
                let (line, room_len) = spoiled_buffer(dice, &network);
                self.pair.buffer(&line, room_len)?
            }
        };
        Ok(())
    }

    /// One call upon a damaged copy of the record; where it still passes, some more.
    fn damaged(&mut self) -> Result<(), String> {
        let list = self.list();
        let network = self.network();
        let (kept, kept_measured) = (self.pair.net.clone(), self.measured.clone());
        self.pair.net = damaged_record(&mut self.dice, &kept);
        self.pair.remember(Event::Record);
        self.pair.seen.damaged_records += 1;
        match self.dice.below(7) {
            0 => {
                let mark = self.dice.pick(&[0, 0, 0, 1, 2]);
                let room_len = self.dice.pick(&[ROOM_LEN, ROOM_LEN, ROOM_LEN - 1]);
                self.pair.byte(mark, data_byte(&mut self.dice), room_len)?;
            }
            1 => {
                let place = self.dice.below(34) as u32;
                self.pair.told(place)?;
            }
            2 => {
                let spoiled = spoiled_list(&mut self.dice, &list);
                let number = self.pair.tick(&spoiled)?;
                let undamaged = uncounted(|| Model { slip: Slip::None }.tick(&mut kept.clone(), &spoiled));
                self.pair.seen.damaged_record_and_list(number, undamaged);
            }
            3 => {
                let line = any_buffer(&mut self.dice, &network);
                self.buffer(&line)?;
            }
            4 => {
                let (line, room_len) = spoiled_buffer(&mut self.dice, &network);
                self.pair.buffer(&line, room_len)?;
            }
            _ => drop(self.pair.tick(&list)?),
        }
        if decode(&self.pair.net, Slip::None).is_some() {
            self.pair.seen.damaged_records_taken += 1;
            self.measured = vec![None; self.chain()];
            self.send_frame()?;
        }
        (self.pair.net, self.measured) = (kept, kept_measured);
        self.pair.remember(Event::Record);
        Ok(())
    }

    fn host(&mut self) -> Result<(), String> {
        let dice = &mut self.dice;
        let address = if dice.percent(90) { u32::from(dice.byte()) } else { dice.pick(&[256, 257, u32::MAX]) };
        let code = if dice.percent(90) { dice.below(16) as u32 } else { dice.pick(&[16, 255, 256, u32::MAX]) };
        let data_len = if dice.percent(90) { dice.below(16) } else { dice.pick(&[16, 17, 255, 256]) };
        let data = dice.bytes(data_len);
        let room_len = match dice.below(4) {
            0 => dice.below(20),
            1 => data_len + 3,
            _ => data_len + 4 + dice.below(3),
        };
        self.pair.write_frame(address, code, &data, room_len)?;

        let dice = &mut self.dice;
        let module_type = dice.pick(&[0, 0, 0, 2, 2, 2, 3, 3, 3, 1, 4, 255, 256, 258, 259, u32::MAX]);
        let items = dice.byte() & if dice.percent(70) { items_of(module_type) } else { 0xFF };
        let sizes = item_sizes(module_type).unwrap_or([1; 8]);
        let mut length = 2 + (0..8).filter(|bit| items >> bit & 1 == 1).map(|bit| sizes[bit]).sum::<usize>();
        if dice.percent(15) {
            length = dice.below(24);
        }
        let mut reply = dice.bytes(length);
        if length > 0 && dice.percent(85) {
            reply[length - 1] = sum(&reply[..length - 1]);
        }
        self.pair.read_status(module_type, items, &reply)
    }

    fn steered(&mut self) -> Result<(), String> {
        let turns = 10 + self.dice.below(40);
        self.begin()?;
        (0..turns).try_for_each(|_| self.turn())
    }

    /// A chain at power-up that hears any bytes at all.
    fn unsteered(&mut self) -> Result<(), String> {
        self.pair.net = self.dice.bytes(NET_LEN);
        let types = steering::types(&mut self.dice);
        self.power_up(&types)?;
        for _ in 0..200 {
            match self.dice.below(10) {
                0 => self.measure_some(),
                1 => self.tick()?,
                2 => {
                    let line = steering::buffer::noise(&mut self.dice);
                    self.buffer(&line)?;
                }
                _ => {
                    let (mark, byte) = (u32::from(self.dice.percent(2)), self.dice.byte());
                    self.line(mark, byte)?;
                }
            }
        }
        Ok(())
    }

    fn turn(&mut self) -> Result<(), String> {
        match self.dice.below(100) {
            0..=9 => self.drive(),
            10..=12 => self.drive_home(),
            13..=16 => self.drive_stepper(),
            17..=67 => self.send_frame(),
            68 | 69 if self.dice.percent(85) => self.send_several(),
            68 | 69 => self.send_most(),
            70..=76 => {
                self.measure_some();
                Ok(())
            }
            77..=83 => self.tick(),
            84 | 85 => {
                let byte = data_byte(&mut self.dice);
                let mark = self.dice.below(2) as u32;
                self.line(mark, byte)
            }
            86 => self.set_up(),
            87 => self.send(&[0; 16]),
            88..=91 => self.refused(),
            92..=97 => self.damaged(),
            _ => self.host(),
        }
    }

    /// 32 leaders of one group with every item defined: a group frame fills the room to its last byte, and as many of them
    /// as can end in a buffer fill the buffer's.
    fn all_lead(&mut self) -> Result<(), String> {
        self.pair.net = self.dice.bytes(NET_LEN);
        let types: [u8; MOST_MODULES] = std::array::from_fn(|_| self.dice.pick(&[0, 2]));
        self.power_up(&types)?;
        for place in 0..MOST_MODULES as u8 {
            self.send(&frame_bytes(0, 1, &[place + 1, 0x7F]))?;
        }
        self.send(&frame_bytes(0xFF, 2, &[0xFF]))?;
        let frames = frame_bytes(0xFF, 14, &[]).repeat(BUFFER_FRAMES + 1);
        self.first_at_its_last(&Line::unmarked(&frames))
    }

    fn begin(&mut self) -> Result<(), String> {
        if self.dice.percent(2) {
            return self.all_lead();
        }
        if self.dice.percent(30) {
            self.pair.net = any_record(&mut self.dice);
            self.pair.remember(Event::Record);
            self.measured = vec![None; self.chain()];
            (0..self.chain()).for_each(|place| self.measure(place));
            // at once, while it is still at the edges of the list
            self.damaged()?;
            if self.dice.percent(50) {
                self.tick()?;
            }
            return Ok(());
        }
        self.pair.net = self.dice.bytes(NET_LEN);
        self.set_up()
    }

    /// A good setup: nothing is measured yet.
    fn power_up(&mut self, types: &[u8]) -> Result<(), String> {
        self.pair.setup(types)?;
        self.measured = vec![None; types.len()];
        Ok(())
    }

    /// A chain at power-up, mostly addressed, whatever the record holds; setups that are refused before it.
    fn set_up(&mut self) -> Result<(), String> {
        let bad_chain = self.dice.pick(&[0, 33, 34, 256]);
        if self.dice.percent(5) {
            let types = self.dice.bytes(bad_chain);
            self.pair.setup(&types)?;
        }
        let mut types = steering::types(&mut self.dice);
        if self.dice.percent(5) {
            let length = self.dice.pick(&[0, 1, NET_LEN - 1, NET_LEN + 1]);
            self.pair.net.resize(length, 0);
            self.pair.setup(&types)?;
            self.pair.net.resize(NET_LEN, 0);
            self.pair.remember(Event::Record);
        }
        if self.dice.percent(10) {
            let at = self.dice.below(types.len());
            let known = types[at];
            types[at] = self.dice.pick(&[1, 4, 255]);
            self.pair.setup(&types)?;
            types[at] = known;
        }
        self.power_up(&types)?;
        if self.dice.percent(80) {
            self.address_the_chain()?;
        }
        Ok(())
    }
}

/// That many sessions from one seed; the first disagreement ends them.
pub fn run(library: &dyn Calls, slip: Slip, seed: u64, sessions: usize) -> Result<Seen, String> {
    run_sessions(library, slip, seed, sessions, true)
}

/// The same with nothing but dice: what steering is worth.
pub fn run_unsteered(library: &dyn Calls, seed: u64, sessions: usize) -> Result<Seen, String> {
    run_sessions(library, Slip::None, seed, sessions, false)
}

fn run_sessions(library: &dyn Calls, slip: Slip, seed: u64, sessions: usize, steered: bool) -> Result<Seen, String> {
    branches::forget();
    let mut seen = Seen::default();
    let junk = Dice::new(seed).bytes(BUFFER_ROOM_LEN + 8 * ROOM_LEN);
    for number in 0..sessions {
        let dice = Dice::new(seed.wrapping_add(number as u64).wrapping_mul(0x2545_F491_4F6C_DD1D));
        let pair = Pair {
            library,
            model: Model { slip },
            net: Vec::new(),
            junk: junk.clone(),
            turn: number,
            past: VecDeque::new(),
            seen: &mut seen,
        };
        let mut session = Session { pair, dice, measured: Vec::new() };
        let outcome = if steered { session.steered() } else { session.unsteered() };
        outcome.map_err(|told| format!("session {number}: {told}"))?;
    }
    Ok(seen)
}
