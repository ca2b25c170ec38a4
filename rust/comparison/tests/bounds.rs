//! Precompensation beyond the disk (request E8): what Initialize takes and refuses, and labels above
//! the bound, which are older than it; through the plain engine and through the proved library.

use comparison::engine::{lent, lent_mut, Engine};
use comparison::examples;
use comparison::paper::{self, Config, Geometry, Kind};
use comparison::plain::{Answer, Controller, Drive};
use comparison::proved::Proved;

/// The mistyped sheet's.
const MISTYPED: u16 = 40_000;

const INTERLEAVE: u8 = 3;

/// An engine with one drive, whose image has just the length that it needs; the others are absent.
struct Disk<E> {
    engine: E,
    drive: usize,
    images: [Vec<u8>; 4],
}

/// One head, this many cylinders; bytes 5-6, which are any, above them.
fn config(drive: usize, cylinders: u16, precompensation: u16) -> Config {
    let ([high, low], [p_high, p_low]) = (cylinders.to_be_bytes(), precompensation.to_be_bytes());
    let (byte_3, byte_4) = match Kind::of(drive) {
        Kind::HardDisk => (0x41, 1),
        Kind::Floppy => (0x41, 0),
    };
    [high, low, 1, byte_3, byte_4, 0xFF, 0xFE, p_high, p_low, 11]
}

impl<E: Engine> Disk<E> {
    /// Fresh, with a zero image.
    fn new(make: &impl Fn(&Controller) -> E, drive: usize, cylinders: u16) -> Disk<E> {
        let geometry = Geometry::read(Kind::of(drive), &config(drive, cylinders, 0), usize::MAX);
        let mut images: [Vec<u8>; 4] = Default::default();
        images[drive] = vec![0; geometry.expect("valid").image_length()];
        let mut disk = Disk { engine: make(&Controller::fresh([&[]; 4])), drive, images };
        disk.reset();
        disk
    }

    /// Formatted; then the label has this number, as earlier cards could write it; then Reset.
    fn labelled(
        make: &impl Fn(&Controller) -> E,
        drive: usize,
        (cylinders, precompensation): (u16, u16),
    ) -> Disk<E> {
        let mut disk = Disk::new(make, drive, cylinders);
        disk.takes(config(drive, cylinders, 0), true);
        assert_eq!(disk.code(0x04, INTERLEAVE, &[]), 0);
        disk.label()[..10].copy_from_slice(&config(drive, cylinders, precompensation));
        disk.reset();
        disk
    }

    fn reset(&mut self) {
        assert_eq!(self.engine.reset(lent(&self.images)), Answer::default());
    }

    fn label(&mut self) -> &mut [u8] {
        &mut self.images[self.drive][..paper::LABEL]
    }

    fn record(&self) -> Drive {
        self.engine.record().drives[self.drive]
    }

    fn in_force(&self) -> Option<(Config, bool)> {
        let Drive { config, known, pending, .. } = self.record();
        known.then_some((config, pending))
    }

    /// The code that a command for address 0 leaves, 0 for none.
    fn code(&mut self, opcode: u8, fifth: u8, given: &[u8]) -> u8 {
        let bits = 32 * self.drive as u8;
        let block = [opcode, bits, 0, 0, fifth, 0];
        let mut area = [0; 256];
        let answer = self.engine.execute(&block, given, &mut area, lent_mut(&mut self.images));
        let [code, ..] = self.record().sense;
        let status = bits + if code == 0 { 0 } else { 2 };
        assert_eq!((answer.number, answer.status), (0, status), "{block:02X?}");
        code
    }

    /// Initialize ends well and leaves the label.
    fn takes(&mut self, config: Config, pending: bool) {
        let label = self.label().to_vec();
        assert_eq!(self.code(0x11, 0, &config), 0, "{config:02X?}");
        assert_eq!(self.in_force(), Some((config, pending)), "{config:02X?}");
        assert_eq!(self.label(), label);
    }

    /// Initialize gives 22h and leaves all but the sense.
    fn refuses(&mut self, config: Config) {
        let (label, before) = (self.label().to_vec(), self.engine.record());
        assert_eq!(self.code(0x11, 0, &config), 0x22, "{config:02X?}");
        let mut expected = before;
        expected.drives[self.drive].sense = [0x22, 32 * self.drive as u8, 0, 0];
        assert!(self.engine.record() == expected, "{config:02X?}");
        assert_eq!(self.label(), label);
    }
}

/// Every number that two bytes can have, with cylinder counts of one byte and of two.
fn every_number<E: Engine>(make: &impl Fn(&Controller) -> E) {
    for (drive, cylinders) in [(0, 3), (1, 3), (0, 1), (1, 258), (2, 3), (3, 255)] {
        let mut disk = Disk::new(make, drive, cylinders);
        let bound = if drive < 2 { cylinders } else { 0xFFFF };
        for number in 0..=0xFFFF {
            let config = config(drive, cylinders, number);
            match number <= bound {
                true => disk.takes(config, true),
                false => disk.refuses(config),
            }
        }
    }
}

/// The smallest disk and the largest.
fn limits<E: Engine>(make: &impl Fn(&Controller) -> E) {
    for cylinders in [1, 2, 255, 256, 1_023, 1_024] {
        let mut disk = Disk::new(make, 1, cylinders);
        for number in [cylinders + 1, 2_000, MISTYPED, 0xFFFF] {
            disk.refuses(config(1, cylinders, number));
            assert_eq!(disk.in_force(), None);
        }
        for number in [0, 1, cylinders - 1, cylinders] {
            disk.takes(config(1, cylinders, number), true);
        }
        disk.refuses(config(1, cylinders, cylinders + 1));
        assert_eq!(disk.in_force(), Some((config(1, cylinders, cylinders), true)));
    }
}

/// The bound is one of the command's own checks, beside the other 22h.
fn order_of_checks<E: Engine>(make: &impl Fn(&Controller) -> E) {
    let mut disk = Disk::new(make, 0, 3);
    let mistyped = config(0, 3, MISTYPED);
    let before = disk.engine.record();
    let short = [0x11, 0, 0, 0, 0, 0];
    let answer = disk.engine.execute(&short, &mistyped[..9], &mut [], lent_mut(&mut disk.images));
    assert_eq!(answer, Answer { number: 2, ..Answer::default() });
    assert!(disk.engine.record() == before);
    let image = std::mem::take(&mut disk.images[0]);
    assert_eq!(disk.code(0x11, 0, &mistyped), 0x04);
    disk.images[0] = image;
    disk.refuses(mistyped);
    // Within the bound, and too large for the image.
    disk.refuses(config(0, 4, 4));
    // What comes past the ten bytes is not looked at.
    assert_eq!(disk.code(0x11, 0, &[&config(0, 3, 3)[..], &[0xFF; 5]].concat()), 0);
}

/// A stored label above the bound loads, and its own bytes are taken as any label's.
fn labels<E: Engine>(make: &impl Fn(&Controller) -> E) {
    for (drive, number) in [(0, 4), (1, MISTYPED), (0, 0xFFFF), (1, 0x0300)] {
        let mut disk = Disk::labelled(make, drive, (3, number));
        let stored = config(drive, 3, number);
        assert_eq!(disk.in_force(), Some((stored, false)));
        for opcode in [0x00, 0x01, 0x08, 0x0B] {
            assert_eq!(disk.code(opcode, 1, &[]), 0);
        }
        disk.takes(stored, false);
        // It ends the pending of others.
        disk.takes(config(drive, 3, 2), true);
        assert_eq!(disk.code(0x08, 1, &[]), 0x16);
        disk.takes(stored, false);
        assert_eq!(disk.code(0x08, 1, &[]), 0);
        near_label(&mut disk, stored);
        written_again(&mut disk, stored);
    }
}

/// Bytes that are not all the label's have the bound.
fn near_label<E: Engine>(disk: &mut Disk<E>, stored: Config) {
    for (at, byte) in [(3, 0x40), (5, 0), (6, 0), (9, 10)] {
        let mut near = stored;
        near[at] = byte;
        disk.refuses(near);
    }
    disk.refuses(config(disk.drive, 3, MISTYPED + 1));
    assert_eq!(disk.in_force(), Some((stored, false)));
}

/// Format Drive writes what is in force, from Reset and from Initialize.
fn written_again<E: Engine>(disk: &mut Disk<E>, stored: Config) {
    for start in [0, 1] {
        let block = [0x04, 32 * disk.drive as u8, 0, 32 * start, INTERLEAVE, 0];
        let answer = disk.engine.execute(&block, &[], &mut [], lent_mut(&mut disk.images));
        assert_eq!(answer, Answer { status: block[1], ..Answer::default() });
        assert_eq!(disk.label(), [&stored[..], &[0; 6]].concat());
        disk.takes(stored, false);
    }
    disk.reset();
    assert_eq!(disk.in_force(), Some((stored, false)));
    // Once another label is written the bound holds for the old bytes too.
    disk.takes(config(disk.drive, 3, 3), true);
    assert_eq!(disk.code(0x04, INTERLEAVE, &[]), 0);
    disk.refuses(stored);
}

/// The ten bytes of a label that is not valid are not its own.
fn spoilt_labels<E: Engine>(make: &impl Fn(&Controller) -> E) {
    for at in 10..16 {
        let mut disk = Disk::labelled(make, 0, (3, MISTYPED));
        let stored = config(0, 3, MISTYPED);
        disk.label()[at] = 1;
        disk.refuses(stored);
        assert_eq!(disk.in_force(), Some((stored, false)));
        disk.reset();
        assert_eq!(disk.in_force(), None);
        disk.refuses(stored);
        disk.label()[at] = 0;
        disk.takes(stored, false);
    }
    let mut disk = Disk::labelled(make, 0, (3, MISTYPED));
    disk.images[0].pop();
    disk.refuses(config(0, 3, MISTYPED));
}

fn all<E: Engine>(make: &impl Fn(&Controller) -> E) {
    every_number(make);
    limits(make);
    order_of_checks(make);
    labels(make);
    spoilt_labels(make);
    examples::bound_frames(make);
}

/// The comparison draws its calls by the judge's own rules, so these are held against the bytes too.
#[test]
fn the_judge_knows_the_bound() {
    for cylinders in [1, 3, 255, 256, 258, 1_024] {
        for number in 0..=0xFFFF {
            let config = config(0, cylinders, number);
            assert_eq!(paper::precompensation(&config), u32::from(number));
            assert_eq!(paper::is_beyond(&config), number > cylinders);
            assert!(Geometry::read(Kind::HardDisk, &config, usize::MAX).is_some());
        }
    }
    assert_eq!(Kind::ALL.map(|kind| kind.rules().bound), [true, false]);
}

#[test]
fn plain_bounds() {
    all(&Controller::clone);
}

#[test]
fn proved_bounds() {
    all(&Proved::from_record);
}
