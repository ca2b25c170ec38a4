//! Floppies (request E3) by their bytes: what each command leaves in the image is written out here,
//! for drives 2 and 3, beside images that no command on a floppy may touch.

use comparison::engine::{lent, lent_mut, Engine};
use comparison::paper::{Geometry, Kind};
use comparison::plain::{Answer, Controller};
use comparison::proved::Proved;

const FLOPPIES: [usize; 2] = [2, 3];

/// Two cylinders, two heads; any high nibble, and bytes 5 to 9 that mean nothing.
const CONFIG: [u8; 10] = [0, 2, 2, 0xF1, 0, 0xFF, 0x80, 7, 0, 0xC3];
const LENGTH: usize = 16 + 4 * 2_176;

/// Ten bytes that a hard disk of one track has.
const HARD_DISK: [u8; 10] = [0, 1, 1, 1, 1, 0, 0, 0, 0, 0];

/// Four drives that differ in every configuration, and the lengths that they need.
const CONFIGS: [[u8; 10]; 4] = [
    [0, 1, 1, 0, 1, 0, 0, 0, 0, 0],
    [0, 1, 1, 0, 2, 0, 0, 0, 0, 0],
    CONFIG,
    [0, 3, 1, 0x21, 0, 1, 2, 3, 4, 5],
];
const LENGTHS: [usize; 4] = [8_464, 8_856, LENGTH, 16 + 3 * 2_176];

/// The sector in each slot, by interleave.
const LAYOUTS: [(u8, [u8; 16]); 4] = [
    (1, [0, 1, 2, 3, 4, 5, 6, 7, 8, 9, 10, 11, 12, 13, 14, 15]),
    (2, [0, 8, 1, 9, 2, 10, 3, 11, 4, 12, 5, 13, 6, 14, 7, 15]),
    (3, [0, 11, 6, 1, 12, 7, 2, 13, 8, 3, 14, 9, 4, 15, 10, 5]),
    (15, [0, 15, 14, 13, 12, 11, 10, 9, 8, 7, 6, 5, 4, 3, 2, 1]),
];

/// What is lent in an image or an area and must stay.
const LENT: u8 = 0x77;

/// An engine with a floppy, and other images beside it.
struct Floppy<E> {
    engine: E,
    drive: usize,
    images: [Vec<u8>; 4],
}

impl<E: Engine> Floppy<E> {
    /// Fresh, with an image of this length.
    fn new(make: &impl Fn(&Controller) -> E, drive: usize, length: usize) -> Floppy<E> {
        let mut images = [(); 4].map(|()| vec![LENT; 9_000]);
        images[drive] = vec![LENT; length];
        let mut engine = make(&Controller::fresh([&[]; 4]));
        engine.reset(lent(&images));
        Floppy { engine, drive, images }
    }

    /// Initialized with [`CONFIG`] and formatted; there are some bytes past its end.
    fn formatted(make: &impl Fn(&Controller) -> E, drive: usize) -> Floppy<E> {
        let mut floppy = Floppy::new(make, drive, LENGTH + 5);
        floppy.good([0x11, 0, 0, 0, 0, 0], &CONFIG, &mut []);
        floppy.good([0x04, 0, 0, 0, 1, 0], &[], &mut []);
        floppy
    }

    fn image(&mut self) -> &mut Vec<u8> {
        &mut self.images[self.drive]
    }

    /// The ID of a slot.
    fn id(&mut self, track: usize, slot: usize) -> &mut [u8] {
        let end = data(track, slot).start;
        &mut self.image()[end - 8..end]
    }

    fn drive_bits(&self) -> u8 {
        32 * self.drive as u8
    }

    /// A command, its drive bits put in; the other images stay.
    fn execute(&mut self, block: [u8; 6], given: &[u8], area: &mut [u8]) -> Answer {
        let mut block = block;
        block[1] |= self.drive_bits();
        let others = self.others();
        let answer = self.engine.execute(&block, given, area, lent_mut(&mut self.images));
        assert!(self.others() == others, "another drive's image was changed");
        answer
    }

    /// The images with the floppy's own left out.
    fn others(&self) -> [Vec<u8>; 4] {
        let mut others = self.images.clone();
        others[self.drive].clear();
        others
    }

    fn sense(&self) -> [u8; 4] {
        self.engine.record().drives[self.drive].sense
    }

    fn good(&mut self, block: [u8; 6], given: &[u8], area: &mut [u8]) -> Answer {
        let answer = self.execute(block, given, area);
        assert_eq!((answer.number, answer.status), (0, self.drive_bits()), "{block:02X?}");
        assert_eq!(self.sense(), [0, self.drive_bits(), 0, 0]);
        answer
    }

    /// The command ends with this sense, its drive bits put in, before it has done anything.
    fn fails(&mut self, block: [u8; 6], given: &[u8], mut sense: [u8; 4]) {
        let image = self.image().clone();
        let mut expected = self.engine.record();
        sense[1] |= self.drive_bits();
        expected.drives[self.drive].sense = sense;
        let mut area = [LENT; 1_024];
        let answer = self.execute(block, given, &mut area);
        let status = 2 + self.drive_bits();
        assert_eq!(answer, Answer { status, ..Answer::default() }, "{block:02X?}");
        assert_eq!(self.engine.record(), expected, "{block:02X?}");
        assert!(*self.image() == image, "{block:02X?} changed the image");
        assert!(area.iter().all(|&byte| byte == LENT), "{block:02X?} changed the area");
    }

    /// The command is refused with this number, and nothing is changed.
    fn refuses(&mut self, block: [u8; 6], given: &[u8], area: usize, number: u8) {
        let (image, record) = (self.image().clone(), self.engine.record());
        let mut area = vec![LENT; area];
        let answer = self.execute(block, given, &mut area);
        assert_eq!(answer, Answer { number, ..Answer::default() }, "{block:02X?}");
        assert_eq!(self.engine.record(), record);
        assert!(*self.image() == image);
        assert!(area.iter().all(|&byte| byte == LENT));
    }

    fn reset(&mut self) {
        assert_eq!(self.engine.reset(lent(&self.images)), Answer::default());
    }

    /// Whether a configuration is in force, and which, and whether it is pending.
    fn in_force(&self) -> Option<([u8; 10], bool)> {
        let drive = self.engine.record().drives[self.drive];
        drive.known.then_some((drive.config, drive.pending))
    }
}

/// A track as a format leaves it, by hand.
fn track(cylinder: u8, head: u8, layout: &[u8; 16], flag: u8) -> Vec<u8> {
    let slot = |&sector: &u8| {
        let mut slot = vec![0xA1, 0, cylinder, head, sector, flag, 0, 0];
        slot.extend([0xE5; 128]);
        slot
    };
    layout.iter().flat_map(slot).collect()
}

/// The image that Format Drive leaves from [`CONFIG`], and the five bytes past it.
fn formatted_image(layout: &[u8; 16]) -> Vec<u8> {
    let mut image = CONFIG.to_vec();
    image.extend([0; 6]);
    for (cylinder, head) in [(0, 0), (0, 1), (1, 0), (1, 1)] {
        image.extend(track(cylinder, head, layout, 0));
    }
    image.extend([LENT; 5]);
    image
}

/// Where the slot's data are.
fn data(track: usize, slot: usize) -> std::ops::Range<usize> {
    let start = 16 + (track * 16 + slot) * 136;
    start + 8..start + 136
}

/// Whether ten bytes are a floppy's, where its image is long enough.
fn is_valid(config: &[u8; 10]) -> bool {
    let [byte_0, cylinders, heads, byte_3, byte_4, ..] = *config;
    let zeros = byte_0 == 0 && byte_4 == 0;
    zeros && cylinders >= 1 && (heads == 1 || heads == 2) && byte_3 % 16 == 1
}

/// Each of the ten bytes with all its values, the others as on the smallest floppy.
fn configs(at: usize) -> impl Iterator<Item = [u8; 10]> {
    (0..=255).map(move |byte| {
        let mut config = [0, 1, 1, 0x01, 0, 0, 0, 0, 0, 0];
        config[at] = byte;
        config
    })
}

/// Initialize takes what is valid, pending, and leaves the image alone.
fn initialize<E: Engine>(make: &impl Fn(&Controller) -> E, drive: usize) {
    let block = [0x11, 0, 0, 0, 0, 0];
    for at in 0..10 {
        // Room for all cylinders or heads, so that it is not the length that refuses.
        let length = 16 + 2_176 * if at < 3 { 255 } else { 1 };
        let mut floppy = Floppy::new(make, drive, length);
        for config in configs(at) {
            if is_valid(&config) {
                floppy.good(block, &config, &mut []);
                assert_eq!(floppy.in_force(), Some((config, true)));
            } else {
                floppy.fails(block, &config, [0x22, 0, 0, 0]);
            }
        }
        assert!(*floppy.image() == vec![LENT; length], "Initialize touched the image");
    }
    // Past 255 cylinders there is no floppy, whatever its image's length.
    let mut floppy = Floppy::new(make, drive, 16 + 1_025 * 2_176);
    for (high, low) in [(1, 0), (1, 1), (2, 0), (3, 255), (4, 0), (4, 1)] {
        floppy.fails(block, &[high, low, 1, 0x01, 0, 0, 0, 0, 0, 0], [0x22, 0, 0, 0]);
    }
    floppy.fails(block, &HARD_DISK, [0x22, 0, 0, 0]);
    floppy.refuses(block, &CONFIG[..9], 0, 2);
}

/// A floppy's bytes are not a hard disk's, nor is its label.
fn not_a_hard_disk<E: Engine>(make: &impl Fn(&Controller) -> E, drive: usize) {
    let mut floppy = Floppy::formatted(make, drive);
    for hard_disk in [0, 1] {
        floppy.images[hard_disk] = floppy.image().clone();
        let block = [0x11, 32 * hard_disk as u8, 0, 0, 0, 0];
        let answer = floppy.engine.execute(&block, &CONFIG, &mut [], lent_mut(&mut floppy.images));
        assert_eq!(answer.status, 2 + 32 * hard_disk as u8);
        assert_eq!(floppy.engine.record().drives[hard_disk].sense[0], 0x22);
    }
    floppy.reset();
    let known = floppy.engine.record().drives.map(|drive| drive.known);
    assert_eq!(known, [0, 1, 2, 3].map(|other| other == drive));
}

/// Pending until a Format Drive from track 0, whose image is known byte for byte.
fn format_drive<E: Engine>(make: &impl Fn(&Controller) -> E, drive: usize) {
    for (interleave, layout) in &LAYOUTS {
        let mut floppy = Floppy::new(make, drive, LENGTH + 5);
        floppy.fails([0x08, 0, 0, 0, 1, 0], &[], [0x0A, 0, 0, 0]);
        floppy.good([0x11, 0, 0, 0, 0, 0], &CONFIG, &mut []);
        for opcode in [0x06, 0x07, 0x08, 0x0A, 0x0B] {
            floppy.fails([opcode, 0, 0, 0, 1, 0], &[LENT; 128], [0x16, 0, 0, 0]);
        }
        floppy.fails([0x04, 0, 0, 16, *interleave, 0], &[], [0x16, 0, 0, 0]);
        floppy.good([0x04, 0, 0, 15, *interleave, 0], &[], &mut []);
        assert!(*floppy.image() == formatted_image(layout), "interleave {interleave}");
        assert_eq!(floppy.in_force(), Some((CONFIG, false)));
    }
}

/// A format from a track on, and of one track, leave the others.
fn partial_formats<E: Engine>(make: &impl Fn(&Controller) -> E, drive: usize) {
    let mut floppy = Floppy::formatted(make, drive);
    let mut expected = formatted_image(&LAYOUTS[0].1);
    floppy.good([0x04, 0, 0, 40, 3, 0], &[], &mut []);
    expected[16 + 2 * 2_176..16 + 3 * 2_176].copy_from_slice(&track(1, 0, &LAYOUTS[2].1, 0));
    expected[16 + 3 * 2_176..16 + 4 * 2_176].copy_from_slice(&track(1, 1, &LAYOUTS[2].1, 0));
    assert!(*floppy.image() == expected, "Format Drive from track 2");
    floppy.good([0x06, 0, 0, 31, 2, 0], &[], &mut []);
    expected[16 + 2_176..16 + 2 * 2_176].copy_from_slice(&track(0, 1, &LAYOUTS[1].1, 0));
    assert!(*floppy.image() == expected, "Format Track 1");
}

fn interleaves<E: Engine>(make: &impl Fn(&Controller) -> E, drive: usize) {
    let mut floppy = Floppy::formatted(make, drive);
    for opcode in [0x04, 0x06, 0x07] {
        for interleave in 0..=255 {
            let block = [opcode, 0, 0, 0, interleave, 0];
            if (1..=15).contains(&interleave) {
                floppy.good(block, &[], &mut []);
            } else {
                floppy.fails(block, &[], [0x22, 0, 0, 0]);
            }
        }
    }
}

/// Three sectors over the end of a track, written and read back.
fn transfers<E: Engine>(make: &impl Fn(&Controller) -> E, drive: usize) {
    let mut floppy = Floppy::formatted(make, drive);
    floppy.good([0x0F, 0, 0, 0, 0, 0], &[0x99; 512], &mut []);
    let given = [[0xA0; 128], [0xB1; 128], [0xC2; 128], [LENT; 128]].concat();
    let answer = floppy.good([0x0A, 0, 0, 14, 3, 0], &given, &mut []);
    assert_eq!((answer.sectors, answer.bytes), (3, 0));
    let mut expected = formatted_image(&LAYOUTS[0].1);
    expected[data(0, 14)].fill(0xA0);
    expected[data(0, 15)].fill(0xB1);
    expected[data(1, 0)].fill(0xC2);
    assert!(*floppy.image() == expected, "not exactly the three sectors were written");
    let buffer = [[0xC2; 128], [0x99; 128], [0x99; 128], [0x99; 128]].concat();
    assert_eq!(floppy.engine.record().buffer[..], buffer);

    let mut area = [LENT; 512];
    let answer = floppy.good([0x08, 0, 0, 14, 3, 0], &[], &mut area);
    assert_eq!((answer.sectors, answer.bytes), (3, 384));
    assert_eq!(area[..], given);
    assert!(*floppy.image() == expected, "a Read changed the image");
    floppy.refuses([0x0A, 0, 0, 14, 3, 0], &given[..383], 0, 2);
    floppy.refuses([0x08, 0, 0, 14, 3, 0], &[], 383, 3);
    // 64 sectors: a count of 0 is 256.
    floppy.fails([0x08, 0, 0, 0, 0, 0], &[], [0xA1, 0, 0, 0]);
    floppy.fails([0x0A, 0, 0, 63, 2, 0], &given, [0xA1, 0, 0, 63]);
    floppy.fails([0x0B, 0, 0, 64, 0, 0], &[], [0xA1, 0, 0, 64]);
    floppy.good([0x0B, 0, 0, 63, 0, 0], &[], &mut []);
}

/// A bad track is filled with E5h too; transfers end before it with 19h.
fn bad_track<E: Engine>(make: &impl Fn(&Controller) -> E, drive: usize) {
    let mut floppy = Floppy::formatted(make, drive);
    floppy.good([0x0A, 0, 0, 16, 16, 0], &[0x42; 16 * 128], &mut []);
    floppy.good([0x07, 0, 0, 20, 3, 0], &[], &mut []);
    let mut expected = formatted_image(&LAYOUTS[0].1);
    expected[16 + 2_176..16 + 2 * 2_176].copy_from_slice(&track(0, 1, &LAYOUTS[2].1, 1));
    assert!(*floppy.image() == expected, "the bad track's bytes");

    floppy.fails([0x08, 0, 0, 17, 2, 0], &[], [0x99, 0, 0, 17]);
    let answer = floppy.execute([0x0A, 0, 0, 14, 4, 0], &[0xD3; 512], &mut []);
    assert_eq!((answer.status, answer.sectors, answer.bytes), (2 + floppy.drive_bits(), 2, 0));
    assert_eq!(floppy.sense(), [0x99, floppy.drive_bits(), 0, 16]);
    expected[data(0, 14)].fill(0xD3);
    expected[data(0, 15)].fill(0xD3);
    assert!(*floppy.image() == expected, "the two sectors before the bad track");
    let mut area = [LENT; 512];
    let answer = floppy.execute([0x08, 0, 0, 15, 4, 0], &[], &mut area);
    assert_eq!((answer.status, answer.sectors, answer.bytes), (2 + floppy.drive_bits(), 1, 128));
    assert_eq!(area[..], [[0xD3; 128], [LENT; 128], [LENT; 128], [LENT; 128]].concat());

    floppy.good([0x06, 0, 0, 31, 1, 0], &[], &mut []);
    floppy.good([0x08, 0, 0, 16, 16, 0], &[], &mut [0; 16 * 128]);
}

/// A pair that only damage can make, track 1 moved to track 3: it is found and kept together as on
/// a hard disk.
fn pair<E: Engine>(make: &impl Fn(&Controller) -> E, drive: usize) {
    let mut floppy = Floppy::formatted(make, drive);
    for slot in 0..16 {
        floppy.id(1, slot)[5..].copy_from_slice(&[2, 0, 3]);
        floppy.id(3, slot)[5..].copy_from_slice(&[3, 0, 1]);
    }
    let mut expected = floppy.image().clone();
    floppy.good([0x0A, 0, 0, 20, 1, 0], &[0x42; 128], &mut []);
    expected[data(3, 4)].fill(0x42);
    assert!(*floppy.image() == expected, "not exactly the partner's sector was written");
    let mut area = [LENT; 128];
    floppy.good([0x08, 0, 0, 20, 1, 0], &[], &mut area);
    assert_eq!(area, [0x42; 128]);
    floppy.fails([0x08, 0, 0, 52, 1, 0], &[], [0x9C, 0, 0, 52]);
    for opcode in [0x06, 0x07] {
        floppy.fails([opcode, 0, 0, 20, 1, 0], &[], [0x9D, 0, 0, 20]);
        floppy.fails([opcode, 0, 0, 52, 1, 0], &[], [0x9C, 0, 0, 52]);
    }
    floppy.fails([0x04, 0, 0, 33, 1, 0], &[], [0x9D, 0, 0, 33]);
    floppy.id(3, 0)[7] = 2;
    floppy.fails([0x08, 0, 0, 20, 1, 0], &[], [0x9E, 0, 0, 20]);
    floppy.id(3, 0)[7] = 1;
    floppy.good([0x04, 0, 0, 16, 1, 0], &[], &mut []);
    assert!(*floppy.image() == formatted_image(&LAYOUTS[0].1), "Format Drive from the pair on");
}

/// What finding says of a damaged slot 0, and of a sector that no slot holds.
fn damage<E: Engine>(make: &impl Fn(&Controller) -> E, drive: usize) {
    for (at, byte, code) in
        [(0, 0xA0, 0x92), (1, 1, 0x95), (2, 1, 0x95), (3, 0, 0x95), (5, 4, 0x90)]
    {
        let mut floppy = Floppy::formatted(make, drive);
        floppy.id(1, 0)[at] = byte;
        floppy.fails([0x08, 0, 0, 20, 1, 0], &[], [code, 0, 0, 20]);
        floppy.fails([0x0A, 0, 0, 20, 1, 0], &[0; 128], [code, 0, 0, 20]);
    }
    let mut floppy = Floppy::formatted(make, drive);
    floppy.id(1, 4)[4] = 16;
    floppy.fails([0x08, 0, 0, 20, 1, 0], &[], [0x94, 0, 0, 20]);
    floppy.good([0x08, 0, 0, 21, 1, 0], &[], &mut [0; 128]);
}

/// Check Track and Assign Alternate are 22h whatever the drive is, but not before 20h.
fn refused_commands<E: Engine>(make: &impl Fn(&Controller) -> E, drive: usize) {
    let refused = |floppy: &mut Floppy<E>| {
        for (opcode, control) in [(0x05, 0), (0x0E, 0), (0x05, 0x80), (0x0E, 0xA0), (0x0E, 0x20)] {
            for interleave in [0, 1, 16] {
                let block = [opcode, 0x1F, 0xFF, 0xFF, interleave, control];
                floppy.fails(block, &[0, 0, 16], [0x22, 0, 0, 0]);
                floppy.fails(block, &[], [0x22, 0, 0, 0]);
            }
        }
        floppy.fails([0x0D, 0, 0, 0, 1, 0], &[], [0x20, 0, 0, 0]);
    };
    for length in [0, 15] {
        let mut floppy = Floppy::new(make, drive, length);
        floppy.fails([0x00, 0, 0, 0, 0, 0], &[], [0x04, 0, 0, 0]);
        floppy.fails([0x11, 0, 0, 0, 0, 0], &CONFIG, [0x04, 0, 0, 0]);
        floppy.fails([0x04, 0, 0, 0, 1, 0], &[], [0x04, 0, 0, 0]);
        refused(&mut floppy);
    }
    let mut floppy = Floppy::new(make, drive, LENGTH);
    floppy.fails([0x00, 0, 0, 0, 0, 0], &[], [0x0A, 0, 0, 0]);
    refused(&mut floppy);
    floppy.good([0x11, 0, 0, 0, 0, 0], &CONFIG, &mut []);
    refused(&mut floppy);
    floppy.good([0x04, 0, 0, 0, 1, 0], &[], &mut []);
    refused(&mut floppy);
}

/// Control bit 5: without effect in 04 and 06, undefined in the others.
fn bit_5<E: Engine>(make: &impl Fn(&Controller) -> E, drive: usize) {
    let mut floppy = Floppy::formatted(make, drive);
    floppy.good([0x0F, 0, 0, 0, 0, 0], &[0x99; 512], &mut []);
    for control in [0x20, 0xA0] {
        floppy.good([0x04, 0, 0, 0, 2, control], &[], &mut []);
        let mut expected = formatted_image(&LAYOUTS[1].1);
        assert!(*floppy.image() == expected, "Format Drive with control {control:02X}h");
        floppy.good([0x06, 0, 0, 16, 15, control], &[], &mut []);
        expected[16 + 2_176..16 + 2 * 2_176].copy_from_slice(&track(0, 1, &LAYOUTS[3].1, 0));
        assert!(*floppy.image() == expected, "Format Track with control {control:02X}h");
        for opcode in [0x07, 0x08, 0x0A, 0x0B] {
            floppy.fails([opcode, 0, 0, 0, 1, control], &[0; 128], [0x22, 0, 0, 0]);
        }
    }
    for opcode in [0x04, 0x06, 0x07, 0x08, 0x0A, 0x0B] {
        for control in [0x01, 0x02, 0x04, 0x08, 0x10, 0x40] {
            floppy.fails([opcode, 0, 0, 0, 1, control], &[0; 128], [0x22, 0, 0, 0]);
        }
    }
}

/// Reset brings a label into force; Initialize with its own ten bytes does too.
fn labels<E: Engine>(make: &impl Fn(&Controller) -> E, drive: usize) {
    let mut floppy = Floppy::formatted(make, drive);
    let mut other = CONFIG;
    other[7] ^= 1;
    floppy.good([0x11, 0, 0, 0, 0, 0], &other, &mut []);
    assert_eq!(floppy.in_force(), Some((other, true)));
    floppy.good([0x11, 0, 0, 0, 0, 0], &CONFIG, &mut []);
    assert_eq!(floppy.in_force(), Some((CONFIG, false)));
    floppy.good([0x11, 0, 0, 0, 0, 0], &other, &mut []);
    floppy.reset();
    assert_eq!(floppy.in_force(), Some((CONFIG, false)));
    floppy.good([0x08, 0, 0, 0, 1, 0], &[], &mut [0; 128]);
    for at in 10..16 {
        floppy.image()[at] = 1;
        floppy.reset();
        assert_eq!(floppy.in_force(), None, "byte {at}");
        floppy.fails([0x00, 0, 0, 0, 0, 0], &[], [0x0A, 0, 0, 0]);
        floppy.image()[at] = 0;
    }
    floppy.image()[..10].copy_from_slice(&HARD_DISK);
    floppy.reset();
    assert_eq!(floppy.in_force(), None, "a hard disk's label");
}

/// The smallest and the largest floppy, and one byte less than they need.
fn lengths<E: Engine>(make: &impl Fn(&Controller) -> E, drive: usize) {
    for (cylinders, heads, length) in [(1, 1, 2_192), (255, 2, 1_109_776)] {
        let config = [0, cylinders, heads, 0x01, 0, 0, 0, 0, 0, 0];
        let mut floppy = Floppy::new(make, drive, length - 1);
        floppy.fails([0x11, 0, 0, 0, 0, 0], &config, [0x22, 0, 0, 0]);
        floppy.image().push(LENT);
        floppy.good([0x11, 0, 0, 0, 0, 0], &config, &mut []);
        floppy.good([0x04, 0, 0, 0, 1, 0], &[], &mut []);
        last_sector(&mut floppy, cylinders, heads);
        let last = floppy.image().pop();
        floppy.fails([0x00, 0, 0, 0, 0, 0], &[], [0x0A, 0, 0, 0]);
        floppy.reset();
        assert_eq!(floppy.in_force(), None, "the label of an image one byte short");
        floppy.image().extend(last);
        floppy.reset();
        assert_eq!(floppy.in_force(), Some((config, false)));
    }
}

/// The last sector is written at the image's end; the next address is past the end.
fn last_sector<E: Engine>(floppy: &mut Floppy<E>, cylinders: u8, heads: u8) {
    let addresses = u32::from(cylinders) * u32::from(heads) * 16;
    let [_, high, middle, low] = (addresses - 1).to_be_bytes();
    let mut expected = floppy.image().clone();
    let slot = expected.len() - 136;
    assert_eq!(expected[slot..slot + 8], [0xA1, 0, cylinders - 1, heads - 1, 15, 0, 0, 0]);
    assert_eq!(expected[slot + 8..], [0xE5; 128]);
    expected[slot + 8..].fill(0x3C);
    floppy.good([0x0A, high, middle, low, 1, 0], &[0x3C; 128], &mut []);
    assert!(*floppy.image() == expected, "not exactly the last sector was written");
    let mut area = [LENT; 129];
    floppy.good([0x08, high, middle, low, 1, 0], &[], &mut area);
    assert_eq!(area[..128], [0x3C; 128]);
    assert_eq!(area[128], LENT);
    let [_, high, middle, low] = addresses.to_be_bytes();
    floppy.fails([0x08, high, middle, low, 1, 0], &[], [0xA1, high, middle, low]);
}

/// Two hard disks and two floppies at once, each with its own label, data and sense.
fn four_drives<E: Engine>(make: &impl Fn(&Controller) -> E) {
    let sizes = [256, 512, 128, 128];
    let mut images = LENGTHS.map(|length| vec![0; length]);
    let mut engine = make(&Controller::fresh([&[]; 4]));
    let mut good = |block: [u8; 6], given: &[u8], images: &mut [Vec<u8>; 4]| {
        let mut area = vec![0; 512];
        let answer = engine.execute(&block, given, &mut area, lent_mut(images));
        assert_eq!((answer.number, answer.status), (0, block[1]), "{block:02X?}");
        area
    };
    for drive in 0..4 {
        let bits = 32 * drive as u8;
        let written = vec![0x10 + drive as u8; sizes[drive]];
        good([0x11, bits, 0, 0, 0, 0], &CONFIGS[drive], &mut images);
        good([0x04, bits, 0, 0, 1, 0], &[], &mut images);
        good([0x0A, bits, 0, 5, 1, 0], &written, &mut images);
    }
    for drive in 0..4 {
        let size = sizes[drive];
        let area = good([0x08, 32 * drive as u8, 0, 5, 1, 0], &[], &mut images);
        assert_eq!(area[..size], vec![0x10 + drive as u8; size]);
        assert_eq!(images[drive][..10], CONFIGS[drive]);
        let start = 16 + 5 * (8 + size);
        assert_eq!(images[drive][start + 8..][..size], area[..size]);
        let fill = if drive < 2 { 0x6C } else { 0xE5 };
        assert_eq!(images[drive][24..][..size], vec![fill; size]);
    }
    for (drive, record) in engine.record().drives.iter().enumerate() {
        assert_eq!(record.sense, [0, 32 * drive as u8, 0, 0]);
    }
    engine.reset(lent(&images));
    for (record, config) in engine.record().drives.iter().zip(CONFIGS) {
        assert_eq!((record.known, record.pending, record.config), (true, false, config));
    }
}

fn all<E: Engine>(make: &impl Fn(&Controller) -> E) {
    for drive in FLOPPIES {
        initialize(make, drive);
        not_a_hard_disk(make, drive);
        format_drive(make, drive);
        partial_formats(make, drive);
        interleaves(make, drive);
        transfers(make, drive);
        bad_track(make, drive);
        pair(make, drive);
        damage(make, drive);
        refused_commands(make, drive);
        bit_5(make, drive);
        labels(make, drive);
        lengths(make, drive);
    }
    four_drives(make);
}

/// The comparison draws its calls by the judge's own rules, so these are held against the bytes too.
#[test]
fn the_judge_knows_floppies() {
    for config in (0..10).flat_map(configs).chain([CONFIG, HARD_DISK]) {
        let geometry = Geometry::read(Kind::Floppy, &config, usize::MAX);
        assert_eq!(geometry.is_some(), is_valid(&config), "{config:?}");
        if let Some(geometry) = geometry {
            let tracks = usize::from(config[1]) * usize::from(config[2]);
            assert_eq!((geometry.sectors, geometry.data), (16, 128));
            assert_eq!(geometry.image_length(), 16 + tracks * 2_176);
        }
    }
}

/// The wrapper lends `fresh` each drive's own image.
#[test]
fn fresh_loads_four_labels() {
    let mut images = LENGTHS.map(|length| vec![0; length]);
    for (image, config) in images.iter_mut().zip(CONFIGS) {
        image[..10].copy_from_slice(&config);
    }
    let card = lanthewg::Controller::fresh(lent(&images));
    for (drive, config) in card.drives.iter().zip(CONFIGS) {
        assert_eq!((drive.known, drive.pending, drive.config), (true, false, config));
    }
}

#[test]
fn plain_floppies() {
    all(&Controller::clone);
}

#[test]
fn proved_floppies() {
    all(&Proved::from_record);
}
