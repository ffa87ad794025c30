//! The replay program.

use super::network::{Ended, Module, Network};
use super::servo::HIGH;
use super::station::EXECUTED;
use crate::branches::{reach, Branch};
use crate::calls::{io_sample, no_sample, servo_sample, stepper_sample, Sample, MOST_MODULES};
use crate::slips::Slip;

/// A record of a replay file by its kind: a module's type, or an event. Whether it can be played is another matter.
pub enum Record {
    Module(u8),
    Event(Event),
}

pub enum Event {
    LineByte { mark: u8, byte: u8 },
    ServoSample { place: u8, power: u8, ad: u8, raw: u32, inputs: u8 },
    IoSample { place: u8, inputs: u16, ad: [u8; 3], counter: u32 },
    Tick,
    StepperSample { place: u8, stop: u8 },
}

impl Record {
    /// The record at the head of a file and its length, or nothing where its kind is unknown or it is cut short.
    pub fn first(file: &[u8]) -> Option<(Record, usize)> {
        let body_length = [1, 2, 8, 10, 0, 2];
        let kind = usize::from(*file.first()?);
        let length = 1 + body_length.get(kind).or_else(|| bad(Branch::ReplayKind))?;
        let four = |bytes: &[u8]| u32::from_le_bytes(bytes.try_into().expect("four bytes"));
        let event = match *file.get(..length).or_else(|| bad(Branch::ReplayCut))? {
            [0, module_type] => return Some((Record::Module(module_type), length)),
            [1, mark, byte] => Event::LineByte { mark, byte },
            [2, place, power, ad, ref raw @ .., inputs] => {
                Event::ServoSample { place, power, ad, raw: four(raw), inputs }
            }
            [3, place, low, high, ad1, ad2, ad3, ref counter @ ..] => {
                let inputs = u16::from_le_bytes([low, high]);
                Event::IoSample { place, inputs, ad: [ad1, ad2, ad3], counter: four(counter) }
            }
            [5, place, stop] => Event::StepperSample { place, stop },
            _ => Event::Tick,
        };
        Some((Record::Event(event), length))
    }
}

/// What the replay program prints for a file.
pub fn replay(file: &[u8]) -> String {
    replay_with(file, Slip::None)
}

/// The same by a rule that may be wrong.
pub fn replay_with(file: &[u8], slip: Slip) -> String {
    let mut replay = Replay { slip, ..Replay::default() };
    let mut at = 0;
    while at < file.len() {
        match replay.record(&file[at..]) {
            Some(length) => at += length,
            None => {
                replay.printed.push_str(&format!("bad {at}\n"));
                return replay.printed;
            }
        }
    }
    reach(Branch::ReplayEnds);
    replay.printed
}

/// A record that is bad in this way.
fn bad<T>(branch: Branch) -> Option<T> {
    reach(branch);
    None
}

/// A sample: for a place beyond the chain, out of range, or good.
fn sample_as(sample: &Sample) -> [Branch; 3] {
    match sample[0] {
        0 => {
            let out_of_range =
                if sample[1] > HIGH { Branch::ReplayServoSamplePower } else { Branch::ReplayServoSampleLimits };
            [Branch::ReplayServoSampleBeyond, out_of_range, Branch::ReplayServoSample]
        }
        2 => [Branch::ReplayIoSampleBeyond, Branch::ReplayIoSampleInputs, Branch::ReplayIoSample],
        _ => [Branch::ReplayStepperSampleBeyond, Branch::ReplayStepperSampleStop, Branch::ReplayStepperSample],
    }
}

/// A sample of this type for a module of another.
fn other_type_as(module_type: u8, module: &Module) -> Branch {
    match (module_type, module) {
        (0, Module::Io(_)) => Branch::ReplayServoSampleForIo,
        (0, _) => Branch::ReplayServoSampleForStepper,
        (2, Module::Servo(_)) => Branch::ReplayIoSampleForServo,
        (2, _) => Branch::ReplayIoSampleForStepper,
        (_, Module::Servo(_)) => Branch::ReplayStepperSampleForServo,
        _ => Branch::ReplayStepperSampleForIo,
    }
}

/// The latest sample of a place, all 0 until one comes.
#[derive(Clone)]
struct Gathered {
    sample: Sample,
    age: Age,
}

#[derive(Clone, Copy, PartialEq)]
enum Age {
    /// No sample has come.
    None,
    /// It came after the last tick.
    New,
    /// A tick has used it.
    Used,
}

#[derive(Default)]
struct Replay {
    modules: Vec<Module>,
    network: Option<Network>,
    gathered: Vec<Gathered>,
    printed: String,
    slip: Slip,
    /// A bad sample that a slip tells at the tick only.
    bad_waits: bool,
}

impl Replay {
    /// One record at the head of the file: its length, or nothing where it is bad.
    fn record(&mut self, file: &[u8]) -> Option<usize> {
        let (record, length) = Record::first(file)?;
        match record {
            Record::Module(_) if self.network.is_some() => return bad(Branch::ReplayModuleLate),
            Record::Module(_) if self.modules.len() == MOST_MODULES => return bad(Branch::ReplayModuleBeyond),
            Record::Module(module_type) => {
                let module = Module::power_up(module_type).or_else(|| bad(Branch::ReplayModuleType))?;
                reach(Branch::ReplayModule);
                self.modules.push(module);
                self.gathered.push(Gathered { sample: no_sample(module_type), age: Age::None });
            }
            Record::Event(_) if self.modules.is_empty() => return bad(Branch::ReplayNoModule),
            Record::Event(event) => self.event(event)?,
        }
        Some(length)
    }

    fn network(&mut self) -> &mut Network {
        let modules = &self.modules;
        self.network.get_or_insert_with(|| Network::power_up(modules.clone(), Slip::None))
    }

    /// An event brought about in the network, or nothing where it is bad.
    fn event(&mut self, event: Event) -> Option<()> {
        self.network();
        match event {
            Event::LineByte { mark, .. } if mark > 1 => bad(Branch::ReplayMark),
            Event::LineByte { mark, byte } => {
                self.line_byte(mark == 1, byte);
                Some(())
            }
            Event::ServoSample { place, power, ad, raw, inputs } => {
                self.sample(place, servo_sample(raw, power, ad, inputs))
            }
            Event::IoSample { place, inputs, ad, counter } => self.sample(place, io_sample(inputs, ad, counter)),
            Event::StepperSample { place, stop } => self.sample(place, stepper_sample(stop)),
            Event::Tick => self.tick(),
        }
    }

    fn line_byte(&mut self, marked: bool, byte: u8) {
        let ended = match self.network().byte(marked, byte) {
            Some(ended) => ended,
            None => return reach(Branch::ReplayByte),
        };
        reach(if ended.replies.is_empty() { Branch::ReplayByte } else { Branch::ReplayReply });
        if self.slip == Slip::ResetDropsGathered {
            self.drop_gathered(&ended);
        }
        for (place, reply) in ended.replies {
            self.printed.push_str(&place.to_string());
            for byte in reply {
                self.printed.push_str(&format!(" {byte:02X}"));
            }
            self.printed.push('\n');
        }
    }

    /// By a slip only: modules that a Hard Reset has brought back to power-up lose what was gathered for them.
    fn drop_gathered(&mut self, ended: &Ended) {
        let network = self.network.as_ref().expect("the one that has taken the frame");
        for (module, gathered) in network.modules.iter().zip(&mut self.gathered) {
            let station = module.station();
            let fresh = station.individual == 0 && station.group == 255 && station.cause == EXECUTED;
            if ended.frame.code == 15 && fresh {
                gathered.sample = no_sample(module.module_type());
            }
        }
    }

    /// A sample is gathered for the next tick. A bad one is bad where it stands, be there a tick after it or not.
    fn sample(&mut self, place: u8, sample: Sample) -> Option<()> {
        let place = usize::from(place);
        let [beyond, out_of_range, good] = sample_as(&sample);
        let fault = match self.modules.get(place) {
            None => Some(beyond),
            Some(module) if module.module_type() != sample[0] => Some(other_type_as(sample[0], module)),
            Some(module) if !module.in_range(&sample, Slip::None) => Some(out_of_range),
            Some(_) => None,
        };
        match fault {
            Some(_) if self.slip == Slip::BadSamplePassedOver => return Some(()),
            Some(_) if self.slip == Slip::BadSampleAtTick => {
                self.bad_waits = true;
                return Some(());
            }
            Some(branch) => return bad(branch),
            None => reach(good),
        }
        self.gather(place, sample);
        Some(())
    }

    fn gather(&mut self, place: usize, sample: Sample) {
        let slip = self.slip;
        if slip == Slip::SampleAtOnce {
            self.network().modules[place].latch(&sample, Slip::None);
        }
        let gathered = &mut self.gathered[place];
        if gathered.age == Age::New {
            reach(Branch::ReplaySampleReplaced);
            if slip == Slip::EarlierSampleUsed {
                return;
            }
        }
        *gathered = Gathered { sample, age: Age::New };
    }

    fn tick(&mut self) -> Option<()> {
        if self.bad_waits {
            return None;
        }
        reach(Branch::ReplayTick);
        let list: Vec<u8> = self.gathered.iter().flat_map(|gathered| gathered.sample).collect();
        self.network().tick(&list).expect("what was gathered is good");
        for gathered in &mut self.gathered {
            match gathered.age {
                Age::None => reach(Branch::ReplayNoSampleYet),
                Age::New => gathered.age = Age::Used,
                Age::Used => reach(Branch::ReplaySampleAgain),
            }
            if self.slip == Slip::SamplesUsedUp {
                gathered.sample = no_sample(gathered.sample[0]);
            }
        }
        Some(())
    }
}
