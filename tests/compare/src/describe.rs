//! A chunk description as the list of the methods called, to be built for both implementations.

use plain::Serial;

use crate::ffi;

#[derive(Clone)]
pub enum Step {
    SubFormat(Vec<u8>),
    GenericType([u8; 3]),
    SynchType([u8; 3]),
    TimeStandard([u8; 3]),
    AlternateStandard(Serial),
    TimeOffset([u8; 16]),
    EventSynch([u8; 3]),
    SlaveEvent(Serial),
    MasterEvent(Serial),
    SerialNumber(Serial),
    Recording([u8; 8], Vec<u8>),
    Writing([u8; 8], Vec<u8>),
}

/// The methods called, in order.
#[derive(Clone)]
pub struct Described(pub Vec<Step>);

impl Described {
    #[rustfmt::skip]
    pub fn plain(&self) -> plain::Description<'_> {
        self.0.iter().fold(plain::Description::new(), |d, step| match step {
            Step::SubFormat(text) => d.sub_format(text),
            Step::GenericType(word) => d.generic_type(*word),
            Step::SynchType(word) => d.synch_type(*word),
            Step::TimeStandard(word) => d.time_standard(*word),
            Step::AlternateStandard(serial) => d.alternate_standard(*serial),
            Step::TimeOffset(bytes) => d.time_offset(*bytes),
            Step::EventSynch(word) => d.event_synch(*word),
            Step::SlaveEvent(serial) => d.slave_event(*serial),
            Step::MasterEvent(serial) => d.master_event(*serial),
            Step::SerialNumber(serial) => d.serial_number(*serial),
            Step::Recording(date, agent) => d.recording(*date, agent),
            Step::Writing(date, agent) => d.writing(*date, agent),
        })
    }

    #[rustfmt::skip]
    pub fn proved(&self) -> ffi::Description {
        self.0.iter().fold(ffi::Description::new(), |d, step| match step {
            Step::SubFormat(text) => d.sub_format(text),
            Step::GenericType(word) => d.generic_type(*word),
            Step::SynchType(word) => d.synch_type(*word),
            Step::TimeStandard(word) => d.time_standard(*word),
            Step::AlternateStandard(serial) => d.alternate_standard(*serial),
            Step::TimeOffset(bytes) => d.time_offset(*bytes),
            Step::EventSynch(word) => d.event_synch(*word),
            Step::SlaveEvent(serial) => d.slave_event(*serial),
            Step::MasterEvent(serial) => d.master_event(*serial),
            Step::SerialNumber(serial) => d.serial_number(*serial),
            Step::Recording(date, agent) => d.recording(*date, agent),
            Step::Writing(date, agent) => d.writing(*date, agent),
        })
    }
}

impl Step {
    /// The field that it sets.
    pub fn field(&self) -> &'static str {
        match self {
            Step::SubFormat(_) => "sub-format",
            Step::GenericType(_) => "generic",
            Step::SynchType(_) => "synch",
            Step::TimeStandard(_) | Step::AlternateStandard(_) => "standard",
            Step::TimeOffset(_) => "offset",
            Step::EventSynch(_) | Step::SlaveEvent(_) | Step::MasterEvent(_) => "event",
            Step::SerialNumber(_) => "serial",
            Step::Recording(..) => "recording",
            Step::Writing(..) => "writing",
        }
    }

    fn bytes(&self) -> Vec<u8> {
        match self {
            Step::SubFormat(text) => text.clone(),
            Step::GenericType(word) | Step::SynchType(word) => word.to_vec(),
            Step::TimeStandard(word) | Step::EventSynch(word) => word.to_vec(),
            Step::TimeOffset(bytes) => bytes.to_vec(),
            Step::AlternateStandard(serial) => [b"ALT", &serial[..]].concat(),
            Step::SlaveEvent(serial) => [b"SLV", &serial[..]].concat(),
            Step::MasterEvent(serial) => [b"MAS", &serial[..]].concat(),
            Step::SerialNumber(serial) => serial.to_vec(),
            Step::Recording(date, agent) | Step::Writing(date, agent) => [&date[..], agent].concat(),
        }
    }
}

impl std::fmt::Debug for Described {
    fn fmt(&self, text: &mut std::fmt::Formatter) -> std::fmt::Result {
        for step in &self.0 {
            let bytes = step.bytes();
            write!(text, "{} \"{}\", ", step.field(), bytes[..bytes.len().min(60)].escape_ascii())?;
        }
        Ok(())
    }
}
