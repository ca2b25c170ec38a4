//! Precompensation beyond the disk (request E8): what was reached. Configuration bytes 7-8 and the
//! cylinder count are compared on floppies too, where Initialize does not read them.

use crate::paper::{self, Config, Geometry, Kind, Request, LABEL};
use crate::plain::Drive;
use crate::tally::{Event, Starts};

/// A whole comparison reaches each of the following some hundred times, and at least so often.
pub const LEAST: u64 = 50;

/// How a call met the bound.
#[derive(Clone, Copy, Debug, PartialEq, Eq, PartialOrd, Ord)]
pub enum Met {
    /// 22h of an Initialize that has nothing else wrong.
    Refused,
    /// The same where a valid label above the bound differs in one byte alone.
    NearLabel,
    /// The same with a label's own bytes, where the label is not valid.
    SpoiltLabel,
    /// An Initialize whose number is the cylinder count, taken and pending.
    Equal,
    /// An Initialize above the bound that was taken: as a label's own bytes, or else.
    Settled,
    Pending,
    /// A Reset put a label above the bound in force.
    Loaded,
    /// A Format Drive wrote such a label.
    Written,
}

impl Met {
    pub const ALL: [Met; 8] = [
        Met::Refused,
        Met::NearLabel,
        Met::SpoiltLabel,
        Met::Equal,
        Met::Settled,
        Met::Pending,
        Met::Loaded,
        Met::Written,
    ];

    /// From zero images no hard disk gets a label above the bound.
    pub fn is_possible(self, starts: Starts, kind: Kind) -> bool {
        let (bound, fresh) = (kind.rules().bound, starts == Starts::Fresh);
        match self {
            Met::Refused | Met::Equal => bound,
            Met::NearLabel | Met::SpoiltLabel => bound && !fresh,
            Met::Settled | Met::Loaded | Met::Written => !bound || !fresh,
            Met::Pending => !bound,
        }
    }

    pub fn name(self) -> &'static str {
        match self {
            Met::Refused => "11h is 22h by the bound",
            Met::NearLabel => "11h is 22h near a label",
            Met::SpoiltLabel => "11h is 22h, a spoilt label's",
            Met::Equal => "11h pending at the bound",
            Met::Settled => "11h settled above the bound",
            Met::Pending => "11h pending above the bound",
            Met::Loaded => "Reset loads above the bound",
            Met::Written => "04h good above the bound",
        }
    }
}

/// What a Reset did that left such a record.
pub fn loaded(drive: &Drive) -> Option<Event> {
    (drive.known && paper::is_beyond(&drive.config)).then_some(Event::Bound(Met::Loaded))
}

/// What a good end that left such a record is besides.
pub fn good_end(request: &Request, drive: &Drive) -> Option<Event> {
    let is_beyond = paper::is_beyond(&drive.config);
    let met = match request.opcode {
        0x04 if is_beyond => Met::Written,
        0x11 if is_beyond && drive.pending => Met::Pending,
        0x11 if is_beyond => Met::Settled,
        0x11 if drive.pending && request.kind().rules().bound && is_equal(&drive.config) => {
            Met::Equal
        }
        _ => return None,
    };
    Some(Event::Bound(met))
}

/// Whether the number is the cylinder count.
fn is_equal(config: &Config) -> bool {
    config[7..9] == config[..2]
}

/// What 22h is besides, on this image. Of an Initialize whose bytes are valid only the bound gives it.
pub fn refused(block: &[u8], given: &[u8], image: &[u8]) -> Vec<Event> {
    let (kind, config) = (Request::read(block).kind(), given.first_chunk());
    let valid = |config: &&Config| Geometry::read(kind, config, image.len()).is_some();
    let Some(config) = config.filter(valid).filter(|_| block[0] == 0x11 && block[1] < 0x80) else {
        return Vec::new();
    };
    let mut met = vec![Met::Refused];
    let differing = |label: &Config| label.iter().zip(config).filter(|(a, b)| a != b).count();
    match paper::label(kind, image) {
        Some(label) if paper::is_beyond(&label) && differing(&label) == 1 => {
            met.push(Met::NearLabel);
        }
        None if image[10..LABEL] != [0; 6] && image[..10] == *config => {
            met.push(Met::SpoiltLabel);
        }
        _ => {}
    }
    met.into_iter().map(Event::Bound).collect()
}
