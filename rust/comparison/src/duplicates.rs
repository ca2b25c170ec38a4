//! Transfers of sectors that two or more slots hold. Only these show that the first slot is used,
//! so a comparison on damaged images has to reach them.

use crate::engine::Call;
use crate::outcome::Outcome;
use crate::paper::{self, CopyBlocks, Geometry, Kind, Place, Request, COPY};

/// The ways of a transfer: what it does, and on which track the slots are.
pub const WAYS: [&str; 8] = [
    "Read, home track",
    "Read, partner",
    "Write, home track",
    "Write, partner",
    "Copy from home track",
    "Copy from partner",
    "Copy to home track",
    "Copy to partner",
];

/// Sectors that were moved, and the first of the two ways in which they were.
struct Moved {
    first: Place,
    count: u32,
    way: usize,
}

/// The ways, by their place in [`WAYS`], in which a call met such sectors among those that it moved,
/// each with the kind of drive. A transfer changes no ID and no parameters, so its outcome tells
/// what it found.
pub fn met(call: &Call, outcome: &Outcome) -> Vec<(Kind, usize)> {
    let mut met = Vec::new();
    for Moved { first, count, way } in moved(call, outcome) {
        let [home, partner] = met_in(first, count, outcome);
        let kind = Kind::of(first.drive);
        met.extend(home.then_some((kind, way)));
        met.extend(partner.then_some((kind, way + 1)));
    }
    met
}

/// The sectors that a call moved.
fn moved(call: &Call, outcome: &Outcome) -> Vec<Moved> {
    let Call::Execute { block, .. } = call else {
        return Vec::new();
    };
    let done = u32::from(outcome.answer.sectors);
    // Other commands, and blocks that are refused, move no sector.
    if done == 0 {
        return Vec::new();
    }
    if block[0] == COPY {
        return copied(&CopyBlocks::read(block), done, outcome);
    }
    let request = Request::read(block);
    let way = if request.opcode == 0x08 { 0 } else { 2 };
    vec![Moved { first: request.place(), count: done, way }]
}

/// The destination sectors of a Copy that are done, and the source sectors whose bytes they have.
fn copied(copy: &CopyBlocks, done: u32, outcome: &Outcome) -> Vec<Moved> {
    let [from, to] =
        [copy.source, copy.destination].map(|place| geometry(place.drive, outcome).data);
    let read = copy.count.min((done as usize * to).div_ceil(from) as u32);
    vec![
        Moved { first: copy.source, count: read, way: 4 },
        Moved { first: copy.destination, count: done, way: 6 },
    ]
}

fn geometry(drive: usize, outcome: &Outcome) -> Geometry {
    outcome.setting.view(drive).geometry.expect("sectors were moved")
}

/// Whether such sectors are among those from `first` on: on their home track, and on a partner.
fn met_in(first: Place, count: u32, outcome: &Outcome) -> [bool; 2] {
    let mut met = [false; 2];
    let geometry = geometry(first.drive, outcome);
    let image = &outcome.setting.images[first.drive];
    for address in first.address..first.address + count {
        let (track, sector) = geometry.split(address);
        let searched = paper::searched_track(image, &geometry, track).expect("it was moved");
        let holds = |slot: &u32| paper::holds(image, &geometry, searched, *slot, sector);
        if (0..geometry.sectors).filter(holds).count() > 1 {
            met[usize::from(searched != track)] = true;
        }
    }
    met
}
