//! Hard disks with an assignment that keeps a track's contents.

use std::ops::Range;

use crate::paper::{self, Config, Geometry, Kind, ID, LABEL};
use crate::plain::Answer;
use crate::random::Random;

/// Control bit 4, and bit 7, which has no effect.
const KEEP: u8 = 0x10;
const IDLE: u8 = 0x80;

/// A hard disk whose label holds the parameters in force, and an assignment.
#[derive(Clone, Debug)]
pub struct Start {
    pub name: String,
    pub drive: usize,
    pub geometry: Geometry,
    pub image: Vec<u8>,
    /// The tracks A and B.
    pub a: u32,
    pub b: u32,
    /// Addresses on them.
    pub address: u32,
    pub alternate: u32,
    pub interleave: u32,
    pub control: u8,
}

impl Start {
    pub fn block(&self, opcode: u8, address: u32, fifth: u8, control: u8) -> [u8; 6] {
        let [_, high, middle, low] = address.to_be_bytes();
        [opcode, 32 * self.drive as u8 + high, middle, low, fifth, control]
    }

    /// The assignment.
    pub fn command(&self) -> [u8; 6] {
        self.block(0x0E, self.address, self.interleave as u8, self.control)
    }

    /// The data given with it.
    pub fn alternate(&self) -> [u8; 3] {
        let [_, high, middle, low] = self.alternate.to_be_bytes();
        [high, middle, low]
    }

    /// The answer of a good end.
    pub fn good(&self) -> Answer {
        Answer { status: 32 * self.drive as u8, ..Answer::default() }
    }
}

/// How the tracks beside A and B are.
#[derive(Clone, Copy, Debug, PartialEq, Eq)]
enum Others {
    Sound,
    /// Each in another way; among them a pair, and tracks that point at A and B.
    Damaged,
    /// So many that cylinders and partners need their high bytes.
    Many,
}

/// How A is. All its n sectors are found, so that no two of its n slots hold the same one.
#[derive(Clone, Copy, Debug, PartialEq, Eq)]
enum OfA {
    Formatted,
    /// Sectors in any slots, and slots whose other fields are wrong, which finding does not look at.
    Scattered,
}

/// How B is: free, or taken by A, which is not moved.
#[derive(Clone, Copy, Debug, PartialEq, Eq)]
enum OfB {
    Sound,
    Zeros,
    Random,
    UnknownFlag,
    Taken,
    /// By its slot 0 alone.
    BarelyTaken,
}

const OTHERS: [Others; 2] = [Others::Sound, Others::Damaged];
const OF_A: [OfA; 2] = [OfA::Formatted, OfA::Scattered];
const OF_B: [OfB; 6] =
    [OfB::Sound, OfB::Zeros, OfB::Random, OfB::UnknownFlag, OfB::Taken, OfB::BarelyTaken];
/// Configuration byte 4: 32 sectors of 256 bytes, 17 of 512.
const SIZES: [u8; 2] = [1, 2];

/// How often each way is tried. Drive, interleave, places and control bit 7 change from one start to
/// the next.
const ROUNDS: u32 = 3;

/// Every way of the others, of A and of B, with either size of sectors, and one with many tracks.
pub fn all() -> Vec<Start> {
    let mut starts = Vec::new();
    for round in 0..ROUNDS {
        for others in OTHERS {
            for of_a in OF_A {
                for of_b in OF_B {
                    for size in SIZES {
                        // By one more in each round: else the same would meet again.
                        let number = starts.len() as u32 + round;
                        starts.push(start(number, others, of_a, of_b, size));
                    }
                }
            }
        }
    }
    let number = starts.len() as u32 + ROUNDS;
    starts.push(start(number, Others::Many, OfA::Formatted, OfB::Sound, 2));
    starts
}

fn start(number: u32, others: Others, of_a: OfA, of_b: OfB, size: u8) -> Start {
    let mut random = Random::new(u64::from(number));
    let mut disk = Disk::formatted(&mut random, others, size);
    let geometry = disk.geometry;
    let (a, b) = disk.spoil_others(others, number);
    let interleave = interleaves(geometry.sectors)[number as usize % 5];
    disk.make_a(&mut random, of_a, a, interleave);
    disk.make_b(&mut random, of_b, b, a);
    // Bytes past the parameters' length.
    disk.image.extend(random.bytes(number as usize % 3));
    Start {
        name: format!("start {number}, {others:?} others, {of_a:?} A, {of_b:?} B, {geometry:?}"),
        drive: number as usize / 3 % 2,
        geometry,
        image: disk.image,
        a,
        b,
        address: a * geometry.sectors + random.below(geometry.sectors),
        alternate: b * geometry.sectors + random.below(geometry.sectors),
        interleave,
        control: if number % 4 == 3 { KEEP | IDLE } else { KEEP },
    }
}

/// Interleaves of assignments. No track is formatted with one of them, so that the slots of sectors
/// change.
fn interleaves(sectors: u32) -> [u32; 5] {
    [1, 2, 5, sectors / 2, sectors - 1]
}

/// The interleave that a track has before.
fn own_interleave(track: u32) -> u32 {
    [3, 4, 7][track as usize % 3]
}

struct Disk {
    geometry: Geometry,
    image: Vec<u8>,
}

impl Disk {
    /// Sound tracks, with data that tell each slot from all others.
    fn formatted(random: &mut Random, others: Others, size: u8) -> Disk {
        let (cylinders, heads) = match others {
            Others::Sound => (3u16, 2),
            Others::Damaged => (4, 3),
            Others::Many => (264, 1),
        };
        let [high, low] = cylinders.to_be_bytes();
        let config: Config = [high, low, heads, 0, size, 0, 0, 0, 0, 11];
        let geometry = Geometry::read(Kind::HardDisk, &config, usize::MAX).expect("valid");
        let mut image = random.bytes(geometry.image_length());
        image[..10].copy_from_slice(&config);
        image[10..LABEL].fill(0);
        let mut disk = Disk { geometry, image };
        for track in 0..geometry.tracks() {
            disk.format(track, own_interleave(track), (0, 0));
        }
        disk
    }

    /// Writes the IDs of a track.
    fn format(&mut self, track: u32, interleave: u32, (flag, partner): (u8, u32)) {
        let sectors = paper::sectors_of_slots(self.geometry.sectors, interleave);
        for (slot, sector) in (0..).zip(sectors) {
            let id = self.geometry.id(track, sector, flag, partner);
            self.id(track, slot).copy_from_slice(&id);
        }
    }

    fn id(&mut self, track: u32, slot: u32) -> &mut [u8] {
        &mut self.image[self.geometry.slot(track, slot)][..ID]
    }

    fn stretch(&mut self, track: u32) -> &mut [u8] {
        let Range { start, .. } = self.geometry.slot(track, 0);
        let Range { end, .. } = self.geometry.slot(track, self.geometry.sectors - 1);
        &mut self.image[start..end]
    }

    /// Gives each track its part, A and B first; which tracks lie side by side changes.
    fn spoil_others(&mut self, others: Others, number: u32) -> (u32, u32) {
        let tracks = self.geometry.tracks();
        if others == Others::Many {
            return (tracks - 1, 256);
        }
        if others == Others::Sound {
            let a = number % tracks;
            return (a, (a + 1 + number % (tracks - 1)) % tracks);
        }
        let step = [1, 5, 7, 11][number as usize / 5 % 4];
        let part = |k: u32| (k * step + number) % tracks;
        let (a, b) = (part(0), part(1));
        self.repeat_sector(part(2));
        self.id(part(3), 0)[5] = 9;
        self.id(part(4), 0)[0] = 0xA0;
        self.id(part(5), 0)[2] += 1;
        self.format(part(6), own_interleave(part(6)), (1, 0));
        self.format(part(7), 6, (2, part(8)));
        self.format(part(8), 6, (3, part(7)));
        self.format(part(9), 6, (2, b));
        self.format(part(10), 6, (2, a));
        self.format(part(11), 6, (3, a));
        (a, b)
    }

    /// Two slots hold one sector, and none the other's.
    fn repeat_sector(&mut self, track: u32) {
        let sector = self.id(track, 9)[4];
        self.id(track, 4)[4] = sector;
    }

    fn make_a(&mut self, random: &mut Random, of_a: OfA, a: u32, interleave: u32) {
        if of_a == OfA::Formatted {
            return;
        }
        let mut sectors: Vec<u32> = (0..self.geometry.sectors).collect();
        for slot in (1..sectors.len()).rev() {
            sectors.swap(slot, random.size_below(slot + 1));
        }
        // As the assignment's own order it would show nothing.
        assert_ne!(sectors, paper::sectors_of_slots(self.geometry.sectors, interleave));
        for (slot, sector) in (0..).zip(sectors) {
            let id = self.id(a, slot);
            id[4] = sector as u8;
            random.fill(&mut id[6..]);
            if slot > 0 {
                random.fill(&mut id[1..4]);
                id[5] = random.byte();
            }
        }
    }

    fn make_b(&mut self, random: &mut Random, of_b: OfB, b: u32, a: u32) {
        match of_b {
            OfB::Sound => {}
            OfB::Zeros => self.stretch(b).fill(0),
            OfB::Random => random.fill(self.stretch(b)),
            OfB::UnknownFlag => self.id(b, 0)[5] = 4,
            OfB::Taken => self.format(b, 6, (3, a)),
            OfB::BarelyTaken => {
                self.stretch(b).fill(0);
                let taken = self.geometry.id(b, 0, 3, a);
                self.id(b, 0).copy_from_slice(&taken);
            }
        }
    }
}
