//! Assign Alternate with keep (request E7) by its bytes: what it leaves in the image and how it fails are
//! written out here, for the plain engine and the proved library.

use comparison::engine::{lent, lent_mut, Engine};
use comparison::examples;
use comparison::paper::{self, Config, Geometry, Kind};
use comparison::plain::{Answer, Controller};
use comparison::proved::Proved;

/// Two cylinders, two heads, either size of sectors.
const CONFIGS: [Config; 2] = [[0, 2, 2, 0, 1, 0, 0, 0, 0, 0], [0, 2, 2, 0, 2, 0, 0, 0, 0, 0]];

/// The interleave of the format, and that of assignments.
const FORMATTED: u8 = 3;
const INTERLEAVE: u8 = 5;

const KEEP: u8 = 0x10;
const A: u32 = 1;
const B: u32 = 2;
const ANOTHER: u32 = 3;

/// Sectors of the addresses that blocks name on A and B.
const OF_A: u32 = 6;
const OF_B: u32 = 9;

/// What the buffer holds.
const BUFFER: u8 = 0x99;

/// An engine with one hard disk, drive 1.
struct Disk<E> {
    engine: E,
    geometry: Geometry,
    images: [Vec<u8>; 4],
}

impl<E: Engine> Disk<E> {
    /// Four tracks with data that tell each slot from all others.
    fn new(make: &impl Fn(&Controller) -> E, config: Config) -> Disk<E> {
        let geometry = Geometry::read(Kind::HardDisk, &config, usize::MAX).expect("valid");
        let images = [Vec::new(), vec![0; geometry.image_length()], Vec::new(), Vec::new()];
        let mut engine = make(&Controller::fresh([&[]; 4]));
        engine.reset(lent(&images));
        let mut disk = Disk { engine, geometry, images };
        assert_eq!(disk.code([0x11, 0x20, 0, 0, 0, 0], &config), 0);
        assert_eq!(disk.code([0x04, 0x20, 0, 0, FORMATTED, 0], &[]), 0);
        assert_eq!(disk.code([0x0F, 0x20, 0, 0, 0, 0], &[BUFFER; 512]), 0);
        for track in 0..4 {
            for slot in 0..geometry.sectors {
                let byte = (track * geometry.sectors + slot) as u8;
                disk.images[1][geometry.slot_data(track, slot)].fill(byte);
            }
        }
        disk
    }

    fn execute(&mut self, block: [u8; 6], given: &[u8]) -> Answer {
        self.engine.execute(&block, given, &mut [0; 512], lent_mut(&mut self.images))
    }

    fn sense(&self) -> [u8; 4] {
        self.engine.record().drives[1].sense
    }

    /// The first sense byte that a command leaves: 0 where it ends well.
    fn code(&mut self, block: [u8; 6], given: &[u8]) -> u8 {
        let answer = self.execute(block, given);
        let code = self.sense()[0];
        let status = if code == 0 { 0x20 } else { 0x22 };
        assert_eq!((answer.number, answer.status, answer.message), (0, status, 0));
        code
    }

    fn address(&self, track: u32, sector: u32) -> u8 {
        (track * self.geometry.sectors + sector) as u8
    }

    fn id(&mut self, track: u32, slot: u32) -> &mut [u8] {
        &mut self.images[1][self.geometry.slot(track, slot)][..8]
    }

    /// Gives all slots of a track a flag and a partner.
    fn flag(&mut self, track: u32, flag: u8, partner: u32) {
        for slot in 0..self.geometry.sectors {
            self.id(track, slot)[5..].copy_from_slice(&[flag, 0, partner as u8]);
        }
    }

    /// An assignment from A to a track.
    fn assign(&mut self, to: u32, control: u8) -> Answer {
        let block = [0x0E, 0x20, 0, self.address(A, OF_A), INTERLEAVE, control];
        self.execute(block, &[0, 0, self.address(to, OF_B)])
    }

    /// It ends well and leaves the buffer.
    fn goes_well(&mut self, control: u8) {
        let good = Answer { status: 0x20, ..Answer::default() };
        assert_eq!(self.assign(B, control), good);
        assert_eq!(self.sense(), [0, 0x20, 0, 0]);
        assert_eq!(self.engine.record().buffer, [BUFFER; 512]);
    }

    /// It fails with this sense and changes nothing else.
    fn fails(&mut self, to: u32, control: u8, sense: [u8; 4]) {
        let images = self.images.clone();
        let failed = Answer { status: 0x22, ..Answer::default() };
        assert_eq!(self.assign(to, control), failed);
        assert_eq!(self.sense(), sense);
        assert!(self.images == images, "refused, and an image is another");
        assert_eq!(self.engine.record().buffer, [BUFFER; 512]);
    }

    /// A keep fails with a code and the block's address.
    fn misses(&mut self, code: u8) {
        let sense = [code + 0x80, 0x20, 0, self.address(A, OF_A)];
        self.fails(B, KEEP, sense);
    }
}

fn each_disk<E: Engine>(make: &impl Fn(&Controller) -> E, one: impl Fn(&mut Disk<E>)) {
    for config in CONFIGS {
        one(&mut Disk::new(make, config));
    }
}

/// The slot of each sector.
fn slots_of_sectors(disk: &Disk<impl Engine>, interleave: u8) -> Vec<u32> {
    let sectors = paper::sectors_of_slots(disk.geometry.sectors, interleave.into());
    let slot = |sector| sectors.iter().position(|&held| held == sector).expect("every sector");
    (0..disk.geometry.sectors).map(|sector| slot(sector) as u32).collect()
}

/// B has A's sectors in the block's order, A its data and the IDs of that order; nothing else changes.
fn moves<E: Engine>(disk: &mut Disk<E>, control: u8) {
    let geometry = disk.geometry;
    let mut expected = disk.images.clone();
    let (before, after) = (slots_of_sectors(disk, FORMATTED), slots_of_sectors(disk, INTERLEAVE));
    for (sector, (&from, &to)) in (0..).zip(before.iter().zip(&after)) {
        let data = disk.images[1][geometry.slot_data(A, from)].to_vec();
        let slot = &mut expected[1][geometry.slot(B, to)];
        // Track 2 is cylinder 1, head 0; track 1 is cylinder 0, head 1.
        slot[..8].copy_from_slice(&[0xA1, 0, 1, 0, sector, 3, 0, A as u8]);
        slot[8..].copy_from_slice(&data);
        let slot = &mut expected[1][geometry.slot(A, to)];
        slot[..8].copy_from_slice(&[0xA1, 0, 0, 1, sector, 2, 0, B as u8]);
    }
    disk.goes_well(control);
    assert!(disk.images == expected, "not the image of a move");
}

fn keeps_the_contents<E: Engine>(make: &impl Fn(&Controller) -> E) {
    for control in [KEEP, KEEP | 0x80] {
        each_disk(make, |disk| {
            moves(disk, control);
            // Check Track wants the block's interleave.
            let first = disk.address(A, 0);
            assert_eq!(disk.code([0x05, 0x20, 0, first, INTERLEAVE, 0], &[]), 0);
            assert_eq!(disk.code([0x05, 0x20, 0, first, FORMATTED, 0], &[]), 0x9A);
            assert_eq!(disk.code([0x06, 0x20, 0, first, 1, 0], &[]), 0x9D);
        });
    }
}

/// Bits 4 and 5 together are undefined, and so is bit 4 in every other command.
fn control_bits<E: Engine>(make: &impl Fn(&Controller) -> E) {
    each_disk(make, |disk| {
        for control in [0x30, 0xB0, 0x11, 0x18, 0x50] {
            disk.fails(B, control, [0x22, 0x20, 0, 0]);
            // With 0Eh's own checks to come.
            disk.fails(A, control, [0x22, 0x20, 0, 0]);
        }
        for opcode in [0x04, 0x05, 0x06, 0x07, 0x08, 0x0A, 0x0B] {
            assert_eq!(disk.code([opcode, 0x20, 0, 0, FORMATTED, KEEP], &[0; 3 * 512]), 0x22);
        }
        // Floppies have no Assign Alternate, absent ones neither.
        for drive in [2, 3] {
            let block = [0x0E, 32 * drive, 0, 0, 1, KEEP];
            assert_eq!(disk.execute(block, &[0; 3]).status, 32 * drive + 2);
            let sense = disk.engine.record().drives[usize::from(drive)].sense;
            assert_eq!(sense, [0x22, 32 * drive, 0, 0]);
        }
    });
}

/// A's slot 0 decides first, then each of its sectors.
fn missing_sectors<E: Engine>(make: &impl Fn(&Controller) -> E) {
    each_disk(make, |disk| {
        let sound = disk.images.clone();
        for (at, byte, code) in [(0, 0xA0, 0x12), (1, 1, 0x15), (2, 5, 0x15), (3, 0, 0x15)] {
            disk.id(A, 0)[at] = byte;
            disk.misses(code);
            disk.images.clone_from(&sound);
        }
        for flag in 4..=255 {
            disk.id(A, 0)[5] = flag;
            disk.misses(0x10);
        }
        disk.images.clone_from(&sound);
        disk.flag(A, 1, 0);
        disk.misses(0x19);
        // Of other slots only A1h and the sector count.
        disk.images.clone_from(&sound);
        for slot in 1..disk.geometry.sectors {
            disk.id(A, slot)[0] = 0xA0;
            disk.misses(0x14);
            disk.images.clone_from(&sound);
            for other in (0..disk.geometry.sectors).filter(|&other| other != slot) {
                // Where two slots hold one sector, none holds the other's.
                disk.id(A, slot)[4] = sound[1][disk.geometry.slot(A, other).start + 4];
                disk.misses(0x14);
            }
            disk.images.clone_from(&sound);
        }
        for slot in 1..disk.geometry.sectors {
            disk.id(A, slot)[1..4].fill(0x77);
            disk.id(A, slot)[5..].fill(0x77);
        }
        moves(disk, KEEP);
    });
}

/// What B is comes before a sector that A lacks.
fn order_of_checks<E: Engine>(make: &impl Fn(&Controller) -> E) {
    each_disk(make, |disk| {
        disk.id(A, 1)[0] = 0;
        let sound = disk.images.clone();
        let (a, b) = (disk.address(A, OF_A), disk.address(B, OF_B));
        disk.fails(A, KEEP, [0x22, 0x20, 0, 0]);
        disk.fails(4, KEEP, [0xA1, 0x20, 0, disk.address(4, OF_B)]);
        for (flag, partner, code) in [(1, 0, 0x9F), (2, ANOTHER, 0x9F), (3, ANOTHER, 0x9D)] {
            disk.flag(B, flag, partner);
            disk.fails(B, KEEP, [code, 0x20, 0, b]);
        }
        disk.images.clone_from(&sound);
        disk.flag(A, 2, ANOTHER);
        disk.fails(B, KEEP, [0x9D, 0x20, 0, a]);
        disk.flag(A, 3, ANOTHER);
        disk.fails(B, KEEP, [0x9C, 0x20, 0, a]);
        let short = disk.execute([0x0E, 0x20, 0, a, INTERLEAVE, KEEP], &[0, 0]);
        assert_eq!(short, Answer { number: 2, ..Answer::default() });
    });
}

/// A track that A has taken, and is not moved to, is free for A, with keep and without, and for no
/// other command.
fn can_be_sent_again<E: Engine>(make: &impl Fn(&Controller) -> E) {
    each_disk(make, |disk| {
        disk.flag(B, 3, A);
        let cut = disk.images.clone();
        let b = disk.address(B, OF_B);
        for opcode in [0x06, 0x07, 0x05, 0x08] {
            assert_eq!(disk.code([opcode, 0x20, 0, b, 1, 0], &[]), 0x9C);
        }
        // From track 2 on one of the two would be freed.
        assert_eq!(disk.code([0x04, 0x20, 0, b, 1, 0], &[]), 0x9D);
        // For another track it is taken.
        let other = [0x0E, 0x20, 0, disk.address(ANOTHER, 0), INTERLEAVE, KEEP];
        assert_eq!(disk.code(other, &[0, 0, b]), 0x9D);
        assert!(disk.images == cut, "all of these are refused");
        moves(disk, KEEP);
        let (a, moved) = (disk.address(A, OF_A), disk.images.clone());
        disk.fails(B, KEEP, [0x9D, 0x20, 0, a]);
        assert!(disk.images == moved);
        for control in [0x00, 0x20] {
            disk.images.clone_from(&cut);
            disk.goes_well(control);
            let fill = if control == 0 { 0x6C } else { BUFFER };
            let (taken, moved) = (disk.geometry.slot_data(B, 7), disk.geometry.slot_data(A, 7));
            assert!(disk.images[1][taken].iter().all(|&byte| byte == fill));
            assert!(disk.images[1][moved].iter().all(|&byte| byte == 0x6C));
        }
    });
}

fn all<E: Engine>(make: &impl Fn(&Controller) -> E) {
    keeps_the_contents(make);
    control_bits(make);
    missing_sectors(make);
    order_of_checks(make);
    can_be_sent_again(make);
    examples::keep_frames(make);
}

#[test]
fn plain_engine_keeps() {
    all(&Controller::clone);
}

#[test]
fn proved_library_keeps() {
    all(&Proved::from_record);
}
