//! Assignments that keep a track's contents, and assignments that are sent again (request E7): what
//! they reached.

use crate::engine::Call;
use crate::outcome::Setting;
use crate::paper::{self, Condition, Kind, Request};
use crate::tally::Event;

/// Codes that a keep can end with: of a sector of A that is not found, then of its other own checks.
pub const CODES: [u8; 10] = [0x10, 0x12, 0x14, 0x15, 0x19, 0x1C, 0x1D, 0x1F, 0x21, 0x22];

/// A code of an assignment, where it is a keep's.
pub fn refused(block: &[u8], code: u8) -> Option<Event> {
    let keeps = block[0] == 0x0E && block[5] % 128 == 0b0001_0000;
    (keeps && CODES.contains(&code)).then_some(Event::KeepCode(code))
}

/// Whether an assignment has nothing wrong, as its block shows, but bits 4 and 5 together.
pub fn both_bits(block: &[u8]) -> bool {
    let in_order = block[1] < 128 && (1..16).contains(&block[4]);
    block[0] == 0x0E && in_order && block[5] % 128 == 0b0011_0000
}

/// The kind of drive of an assignment to a track that is taken, and whether it is a keep. Such a one
/// ends well where power has left the track so, and then only what was before shows it.
pub fn onto_taken(call: &Call, before: &Setting) -> Option<(Kind, bool)> {
    let Call::Execute { block, given } = call else {
        return None;
    };
    if block.len() != 6 || block[0] != 0x0E {
        return None;
    }
    let request = Request::read(block);
    let geometry = before.view(request.drive).geometry?;
    let &[high, middle, low] = given.first_chunk()?;
    let (b, _) = geometry.split(u32::from_be_bytes([0, high, middle, low]));
    if b >= geometry.tracks() {
        return None;
    }
    let condition = paper::condition(&before.images[request.drive], &geometry, b);
    matches!(condition, Condition::Taken(_)).then_some((request.kind(), request.keep))
}
