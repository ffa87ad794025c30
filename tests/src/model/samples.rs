//! The list of samples that a tick takes: ten bytes for each place in chain order, and what may be wrong with them.

use super::network::Module;
use super::servo::HIGH;
use crate::branches::{reach, Branch};
use crate::calls::{Sample, BAD_FIELD, BAD_LIST, BAD_PLACE, BAD_TYPE, SAMPLE_LEN};
use crate::slips::Slip;

/// A place's ten bytes, where the list goes that far.
pub fn sample_at(list: &[u8], place: usize) -> Option<Sample> {
    let at = SAMPLE_LEN * place;
    list.get(at..at + SAMPLE_LEN)?.try_into().ok()
}

fn has_length(list: &[u8], chain: usize, slip: Slip) -> bool {
    let right = SAMPLE_LEN * chain;
    match slip {
        Slip::LongListTaken => list.len() >= right,
        Slip::ShortListTaken => list.len() <= right,
        Slip::EmptyListTaken => list.len() == right || list.is_empty(),
        Slip::PartOfSampleTaken => list.len() / SAMPLE_LEN == chain,
        _ => list.len() == right,
    }
}

pub struct Faults {
    length: bool,
    /// Places with a sample of another type than their module's, and places with a field out of range.
    types: Vec<usize>,
    fields: Vec<usize>,
}

impl Faults {
    pub fn found(modules: &[Module], list: &[u8], slip: Slip) -> Faults {
        let (mut types, mut fields) = (Vec::new(), Vec::new());
        for (place, module) in modules.iter().enumerate() {
            if let Some(sample) = sample_at(list, place) {
                if sample[0] != module.module_type() && slip != Slip::TypeNotLookedAt {
                    types.push(place);
                }
                if !module.in_range(&sample, slip) {
                    fields.push(place);
                }
            }
        }
        Faults { length: !has_length(list, modules.len(), slip), types, fields }
    }

    /// The number by which the list is refused, if it is: first comes its length, then any type, then any field.
    pub fn refusal(&self, list: &[u8], slip: Slip) -> Result<(), u32> {
        let wrong_type = match self.types.first() {
            Some(place) if slip == Slip::UnknownTypeApart && is_unknown(list, *place) => BAD_TYPE,
            _ => BAD_PLACE,
        };
        let length = (self.length, BAD_LIST);
        let types = (!self.types.is_empty(), wrong_type);
        let fields = (!self.fields.is_empty(), BAD_FIELD);
        let field_earlier = self.fields.first() < self.types.first();
        let tests = match slip {
            Slip::TypesBeforeLength => [types, length, fields],
            Slip::FieldsBeforeTypes => [length, fields, types],
            Slip::PlaceByPlace if field_earlier => [length, fields, types],
            _ => [length, types, fields],
        };
        tests.into_iter().find(|(wrong, _)| *wrong).map_or(Ok(()), |(_, number)| Err(number))
    }

    /// Counts by what the list is refused, or how it is taken.
    pub fn note(&self, modules: &[Module], list: &[u8]) {
        if self.length {
            self.note_length(modules, list);
        } else if !self.types.is_empty() {
            self.note_types(modules, list);
        } else if !self.fields.is_empty() {
            self.note_fields(modules, list);
        } else {
            note_taken(modules, list);
        }
    }

    fn note_length(&self, modules: &[Module], list: &[u8]) {
        let short = list.len() < SAMPLE_LEN * modules.len();
        reach(match (short, list.len() % SAMPLE_LEN) {
            (true, 0) if list.is_empty() => Branch::SamplesNone,
            (true, 0) => Branch::SamplesTooFew,
            (true, _) => Branch::SamplesShort,
            (false, 0) => Branch::SamplesTooMany,
            (false, _) => Branch::SamplesLong,
        });
        if !self.types.is_empty() {
            reach(Branch::SamplesLengthBeforeType);
        }
        if !self.fields.is_empty() {
            reach(Branch::SamplesLengthBeforeField);
        }
    }

    fn note_types(&self, modules: &[Module], list: &[u8]) {
        for place in &self.types {
            reach(wrong_type_as(&modules[*place], list[SAMPLE_LEN * place]));
        }
        note_ends(&self.types, modules.len(), Branch::SampleTypeFirst, Branch::SampleTypeLast);
        let (first, last) = (self.types[0], self.types[self.types.len() - 1]);
        if self.fields.iter().any(|field| *field < first) {
            reach(Branch::SampleTypeBeforeEarlierField);
        }
        if self.fields.iter().any(|field| *field > last) {
            reach(Branch::SampleTypeBeforeLaterField);
        }
        if self.fields.iter().any(|field| self.types.contains(field)) {
            reach(Branch::SampleTypeBeforeOwnField);
        }
    }

    fn note_fields(&self, modules: &[Module], list: &[u8]) {
        for place in &self.fields {
            reach(match modules[*place] {
                Module::Servo(_) if list[SAMPLE_LEN * place + 1] > HIGH => Branch::SamplePower,
                Module::Servo(_) => Branch::SampleLimits,
                Module::Io(_) => Branch::SampleInputs,
                Module::Stepper(_) => Branch::SampleStop,
            });
        }
        note_ends(&self.fields, modules.len(), Branch::SampleFieldFirst, Branch::SampleFieldLast);
    }
}

/// A sample of another type than the module's.
fn wrong_type_as(module: &Module, module_type: u8) -> Branch {
    match (module, module_type) {
        (Module::Servo(_), 2) => Branch::SampleForIoAtServo,
        (Module::Servo(_), 3) => Branch::SampleForStepperAtServo,
        (Module::Servo(_), _) => Branch::SampleUnknownAtServo,
        (Module::Io(_), 0) => Branch::SampleForServoAtIo,
        (Module::Io(_), 3) => Branch::SampleForStepperAtIo,
        (Module::Io(_), _) => Branch::SampleUnknownAtIo,
        (Module::Stepper(_), 0) => Branch::SampleForServoAtStepper,
        (Module::Stepper(_), 2) => Branch::SampleForIoAtStepper,
        (Module::Stepper(_), _) => Branch::SampleUnknownAtStepper,
    }
}

fn is_unknown(list: &[u8], place: usize) -> bool {
    sample_at(list, place).map_or(false, |sample| Module::power_up(sample[0]).is_none())
}

/// The only fault stands at an end of a chain that has two.
fn note_ends(places: &[usize], chain: usize, first: Branch, last: Branch) {
    match *places {
        [0] if chain > 1 => reach(first),
        [place] if chain > 1 && place == chain - 1 => reach(last),
        _ => {}
    }
}

fn note_taken(modules: &[Module], list: &[u8]) {
    let samples: Vec<Sample> = (0..modules.len()).filter_map(|place| sample_at(list, place)).collect();
    let servos = || samples.iter().filter(|sample| sample[0] == 0);
    if servos().any(|sample| sample[8..] != [0; 2]) {
        reach(Branch::SampleRestNotZero);
    }
    if servos().zip(servos().skip(1)).any(|(one, next)| one[..8] != next[..8]) {
        reach(Branch::SamplesOfServosDiffer);
    }
    let ios = || samples.iter().filter(|sample| sample[0] == 2);
    if ios().zip(ios().skip(1)).any(|(one, next)| one != next) {
        reach(Branch::SamplesOfIosDiffer);
    }
    let steppers = || samples.iter().filter(|sample| sample[0] == 3);
    if steppers().any(|sample| sample[2..] != [0; 8]) {
        reach(Branch::SampleRestOfStepperNotZero);
    }
    if steppers().zip(steppers().skip(1)).any(|(one, next)| one[1] != next[1]) {
        reach(Branch::SamplesOfSteppersDiffer);
    }
}
