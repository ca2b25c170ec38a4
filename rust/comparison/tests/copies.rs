//! Copy Blocks (request E5) by examples whose values are worked out here from the paper, for the
//! plain machine, the plain engine and the proved library.
//!
//! Four drives, each filled so that every 128 bytes of it are told from all others:
//!
//! | drive | sectors | addresses | tracks |
//! |---|---|---|---|
//! | 0 | 512 bytes | 0 to 67 | 4 of 17: 0, 17, 34, 51 |
//! | 1 | 256 bytes | 0 to 95 | 3 of 32: 0, 32, 64 |
//! | 2 | 128 bytes | 0 to 63 | 4 of 16: 0, 16, 32, 48 |
//! | 3 | absent, or one track of 128 bytes | 0 to 15 | 0 |

use comparison::engine::{lent, lent_mut, Engine};
use comparison::examples;
use comparison::machine::{Machine, Reply};
use comparison::plain::Controller;
use comparison::proved::Proved;

const CONFIGS: [[u8; 10]; 4] = [
    [0, 4, 1, 0, 2, 0, 0, 0, 0, 0],
    [0, 3, 1, 0, 1, 0, 0, 0, 0, 0],
    [0, 2, 2, 1, 0, 0, 0, 0, 0, 0],
    [0, 1, 1, 1, 0, 0, 0, 0, 0, 0],
];
const SIZES: [usize; 4] = [512, 256, 128, 128];

/// 16 + 4 × 17 × 520, 16 + 3 × 32 × 264, 16 + 4 × 2,176; drive 3 absent.
const LENGTHS: [usize; 4] = [35_376, 25_360, 8_720, 15];
/// Drive 3 with its one track.
const FOUR: [usize; 4] = [35_376, 25_360, 8_720, 2_192];

/// What the buffer holds before a copy.
const BUFFER: u8 = 0x99;

/// What is driven by commands alone.
trait Console {
    fn command(&mut self, block: &[u8], given: &[u8], area: usize) -> Reply;
}

impl Console for Machine {
    fn command(&mut self, block: &[u8], given: &[u8], area: usize) -> Reply {
        Machine::command(self, block, given, area)
    }
}

/// An engine with its images.
struct Card<E> {
    engine: E,
    images: [Vec<u8>; 4],
}

impl<E: Engine> Card<E> {
    fn fresh(make: &impl Fn(&Controller) -> E, lengths: [usize; 4]) -> Card<E> {
        let images = lengths.map(|length| vec![0; length]);
        let mut engine = make(&Controller::fresh([&[]; 4]));
        engine.reset(lent(&images));
        Card { engine, images }
    }
}

impl<E: Engine> Console for Card<E> {
    fn command(&mut self, block: &[u8], given: &[u8], area: usize) -> Reply {
        let mut area = vec![0x77; area];
        let answer = self.engine.execute(block, given, &mut area, lent_mut(&mut self.images));
        assert!(area[answer.bytes as usize..].iter().all(|&byte| byte == 0x77));
        area.truncate(answer.bytes as usize);
        Reply { answer, data: area }
    }
}

/// A drive and an address.
type Place = (u8, u32);

/// Status, destination sectors done, and the sense of the source drive.
type End = (u8, u16, [u8; 4]);

fn place_bytes((drive, address): Place) -> [u8; 3] {
    let [_, high, middle, low] = address.to_be_bytes();
    [32 * drive + high, middle, low]
}

fn copy_block(from: Place, count: u8, to: Place) -> [u8; 10] {
    let ([s1, s2, s3], [d1, d2, d3]) = (place_bytes(from), place_bytes(to));
    [0x20, s1, s2, s3, count, d1, d2, d3, 0x5E, 0]
}

/// Each byte 128 times.
fn pieces(bytes: &[u8]) -> Vec<u8> {
    bytes.iter().flat_map(|&byte| [byte; 128]).collect()
}

/// What the pieces of a sector are filled with: drive 0 has 0, 1, 2, 3 at address 0, then 4 and so
/// on; drive 1 has 80h, 81h at address 0; drive 2 has F0h at address 0, 0 at address 16.
fn filled((drive, address): Place) -> Vec<u8> {
    let drive = usize::from(drive);
    let first = [0x00, 0x80, 0xF0, 0x40][drive];
    let in_one = SIZES[drive] / 128;
    let piece = |k: usize| (first + address as usize * in_one + k) as u8;
    pieces(&(0..in_one).map(piece).collect::<Vec<u8>>())
}

/// The commands that the examples use.
trait Commands: Console {
    fn good(&mut self, block: [u8; 6], given: &[u8]) -> Vec<u8> {
        let Reply { answer, data } = self.command(&block, given, 4_096);
        assert_eq!((answer.number, answer.status), (0, block[1] & 0x60), "{block:02X?}");
        data
    }

    fn initialize(&mut self, drive: u8, config: &[u8]) {
        self.good([0x11, 32 * drive, 0, 0, 0, 0], config);
    }

    /// With interleave 1: the slots are in the order of addresses.
    fn format(&mut self, drive: u8) {
        self.good([0x04, 32 * drive, 0, 0, 1, 0], &[]);
    }

    /// A format or assignment of the track of an address.
    fn on_track(&mut self, opcode: u8, place: Place, given: &[u8]) {
        let [first, middle, low] = place_bytes(place);
        self.good([opcode, first, middle, low, 1, 0], given);
    }

    fn read(&mut self, place: Place) -> Vec<u8> {
        let [first, middle, low] = place_bytes(place);
        self.good([0x08, first, middle, low, 1, 0], &[])
    }

    fn write(&mut self, place: Place, bytes: &[u8]) {
        let [first, middle, low] = place_bytes(place);
        self.good([0x0A, first, middle, low, 1, 0], bytes);
    }

    fn sense(&mut self, drive: u8) -> [u8; 4] {
        self.good([0x03, 32 * drive, 0, 0, 0, 0], &[]).try_into().expect("four bytes")
    }

    fn set_buffer(&mut self) {
        self.good([0x0F, 0x60, 0, 0, 0, 0], &[BUFFER; 512]);
    }

    fn buffer(&mut self) -> Vec<u8> {
        self.good([0x10, 0x60, 0, 0, 0, 0], &[])
    }

    /// A command that fails and leaves a sense that later ones must not touch.
    fn leave_sense(&mut self, drive: u8) {
        let block = [0x0D, 32 * drive, 0, 0, 0, 0];
        assert_eq!(self.command(&block, &[], 0).answer.status, 32 * drive + 2);
        assert_eq!(self.sense(drive), [0x20, 32 * drive, 0, 0]);
    }

    /// Any block of ten bytes, sent without data and area; all other senses stay.
    fn send(&mut self, block: [u8; 10]) -> End {
        let source = block[1] / 32 % 4;
        for drive in 0..4 {
            self.leave_sense(drive);
        }
        let Reply { answer, data } = self.command(&block, &[], 0);
        assert_eq!((answer.number, answer.message, answer.bytes), (0, 0, 0), "{block:02X?}");
        assert!(data.is_empty());
        for drive in (0..4).filter(|&drive| drive != source) {
            assert_eq!(self.sense(drive), [0x20, 32 * drive, 0, 0], "{block:02X?}");
        }
        (answer.status, answer.sectors, self.sense(source))
    }

    fn copy(&mut self, from: Place, count: u8, to: Place) -> End {
        self.send(copy_block(from, count, to))
    }

    /// Sectors from a place on hold these pieces; those before and behind are as they were filled.
    fn has(&mut self, (drive, address): Place, bytes: &[u8]) {
        let bytes = pieces(bytes);
        let mut next = address;
        for sector in bytes.chunks_exact(SIZES[usize::from(drive)]) {
            assert!(self.read((drive, next)) == sector, "drive {drive}, address {next}");
            next += 1;
        }
        for beside in [address.wrapping_sub(1), next] {
            if self.is_readable((drive, beside)) {
                assert!(self.read((drive, beside)) == filled((drive, beside)), "beside {address}");
            }
        }
    }

    fn is_readable(&mut self, (drive, address): Place) -> bool {
        let [first, middle, low] = place_bytes((drive, address & 0x1F_FFFF));
        let reply = self.command(&[0x08, first, middle, low, 1, 0], &[], 512);
        reply.answer.status & 2 == 0
    }

    /// The buffer's front holds these pieces, and the rest is as before.
    fn has_buffer(&mut self, bytes: &[u8]) {
        let mut expected = pieces(bytes);
        expected.resize(512, BUFFER);
        assert!(self.buffer() == expected);
    }

    /// Drives 0 to 2 formatted and filled.
    fn prepare(&mut self) {
        for (drive, addresses) in [(0, 68), (1, 96), (2, 64)] {
            self.initialize(drive, &CONFIGS[usize::from(drive)]);
            self.format(drive);
            for address in 0..addresses {
                self.write((drive, address), &filled((drive, address)));
            }
        }
        self.set_buffer();
    }
}

impl<C: Console> Commands for C {}

/// 512 to 128: two source sectors, over the end of a track on both sides.
fn larger_to_smaller(console: &mut impl Console) {
    console.prepare();
    // 2 × 512 / 128 = 8 sectors: 13, 14, 15 on track 0, 16 to 20 on track 1.
    // Address 16 has pieces 16 × 4 = 40h to 43h, address 17 44h to 47h.
    assert_eq!(console.copy((0, 16), 2, (2, 13)), (0x00, 8, [0, 0, 0, 0]));
    console.has_buffer(&[0x47]);
    console.has((2, 13), &[0x40, 0x41, 0x42, 0x43, 0x44, 0x45, 0x46, 0x47]);
    console.has((0, 16), &[0x40, 0x41, 0x42, 0x43, 0x44, 0x45, 0x46, 0x47]);
}

/// 512 to 256, and 256 to 128.
fn to_half_the_size(console: &mut impl Console) {
    console.prepare();
    // Address 3 of drive 0 has 0Ch to 0Fh.
    assert_eq!(console.copy((0, 3), 1, (1, 31)), (0x00, 2, [0, 0, 0, 0]));
    console.has_buffer(&[0x0E, 0x0F]);
    console.has((1, 31), &[0x0C, 0x0D, 0x0E, 0x0F]);
    // Address 10 of drive 1 has 80h + 20 = 94h and 95h.
    console.set_buffer();
    assert_eq!(console.copy((1, 10), 2, (2, 0)), (0x20, 4, [0, 0x20, 0, 0]));
    console.has_buffer(&[0x97]);
    console.has((2, 0), &[0x94, 0x95, 0x96, 0x97]);
}

/// 128 to 512: what is missing in the last sector is zeros.
fn smaller_to_larger(console: &mut impl Console) {
    console.prepare();
    // 6 × 128 = 768 bytes: address 20 whole, 256 bytes of address 21 = 15h. 23h comes after the
    // write, so both are counted. Addresses 3 to 8 of drive 2 have F3h to F8h.
    assert_eq!(console.copy((2, 3), 6, (0, 20)), (0x42, 2, [0xA3, 0x00, 0, 0x15]));
    console.has_buffer(&[0xF7, 0xF8, 0, 0]);
    console.has((0, 20), &[0xF3, 0xF4, 0xF5, 0xF6, 0xF7, 0xF8, 0, 0]);
    // One sector, at the drive's end: 67 = 43h.
    assert_eq!(console.copy((2, 0), 1, (0, 67)), (0x42, 1, [0xA3, 0x00, 0, 0x43]));
    console.has((0, 67), &[0xF0, 0, 0, 0]);
    // Three sectors want one piece.
    assert_eq!(console.copy((2, 0), 3, (0, 60)), (0x42, 1, [0xA3, 0x00, 0, 0x3C]));
    console.has((0, 60), &[0xF0, 0xF1, 0xF2, 0]);
    // 8 × 128 are two whole sectors.
    console.set_buffer();
    assert_eq!(console.copy((2, 0), 8, (0, 40)), (0x40, 2, [0, 0x40, 0, 0]));
    console.has_buffer(&[0xF4, 0xF5, 0xF6, 0xF7]);
    console.has((0, 40), &[0xF0, 0xF1, 0xF2, 0xF3, 0xF4, 0xF5, 0xF6, 0xF7]);
}

/// 256 to 512, and 128 to 256.
fn to_twice_the_size(console: &mut impl Console) {
    console.prepare();
    // 3 × 256 = 768 bytes, over the end of drive 1's track 0. Address 31 has 80h + 62 = BEh. The
    // last destination address is 34 = 22h.
    assert_eq!(console.copy((1, 31), 3, (0, 33)), (0x22, 2, [0xA3, 0x00, 0, 0x22]));
    console.has_buffer(&[0xC2, 0xC3, 0, 0]);
    console.has((0, 33), &[0xBE, 0xBF, 0xC0, 0xC1, 0xC2, 0xC3, 0, 0]);
    assert_eq!(console.copy((1, 31), 2, (0, 50)), (0x20, 1, [0, 0x20, 0, 0]));
    console.has((0, 50), &[0xBE, 0xBF, 0xC0, 0xC1]);
    // 3 × 128 = 384 bytes: address 95 = 5Fh has 128 of them.
    console.set_buffer();
    assert_eq!(console.copy((2, 14), 3, (1, 94)), (0x42, 2, [0xA3, 0x20, 0, 0x5F]));
    console.has_buffer(&[0x00, 0]);
    console.has((1, 94), &[0xFE, 0xFF, 0x00, 0]);
    assert_eq!(console.copy((2, 14), 2, (1, 90)), (0x40, 1, [0, 0x40, 0, 0]));
    console.has((1, 90), &[0xFE, 0xFF]);
}

/// Within a drive both sides may touch, but not share a sector.
fn within_a_drive(console: &mut impl Console) {
    console.prepare();
    // 10 to 13 are read: 7 to 10 share the first of them, 13 to 16 the last.
    for to in [7, 8, 9, 10, 11, 12, 13] {
        assert_eq!(console.copy((1, 10), 4, (1, to)), (0x22, 0, [0x22, 0x20, 0, 0]));
    }
    console.has_buffer(&[]);
    console.has((1, 10), &[0x94, 0x95, 0x96, 0x97, 0x98, 0x99, 0x9A, 0x9B]);
    assert_eq!(console.copy((1, 10), 4, (1, 14)), (0x20, 4, [0, 0x20, 0, 0]));
    assert_eq!(console.copy((1, 10), 4, (1, 6)), (0x20, 4, [0, 0x20, 0, 0]));
    for from in [6, 10, 14] {
        let expected = pieces(&[0x94, 0x95, 0x96, 0x97, 0x98, 0x99, 0x9A, 0x9B]);
        let found: Vec<u8> = (from..from + 4).flat_map(|at| console.read((1, at))).collect();
        assert!(found == expected, "from {from}");
    }
    // On two drives the same addresses share nothing.
    assert_eq!(console.copy((1, 20), 1, (2, 20)), (0x20, 2, [0, 0x20, 0, 0]));
    console.has((2, 20), &[0xA8, 0xA9]);
    // The destination is past the end before they overlap; 95 = 5Fh.
    assert_eq!(console.copy((1, 94), 2, (1, 95)), (0x22, 0, [0xA1, 0x20, 0, 0x5F]));
    assert_eq!(console.copy((1, 95), 1, (1, 95)), (0x22, 0, [0x22, 0x20, 0, 0]));
}

/// 21h names the drive that is too small, with its address in the block.
fn past_the_end(console: &mut impl Console) {
    console.prepare();
    // Source: 66 and 67 are there, 68 is not; 66 = 42h.
    assert_eq!(console.copy((0, 66), 3, (2, 0)), (0x02, 0, [0xA1, 0x00, 0, 0x42]));
    assert_eq!(console.copy((0, 68), 1, (2, 0)), (0x02, 0, [0xA1, 0x00, 0, 0x44]));
    assert_eq!(console.copy((0, 0), 0, (2, 0)), (0x02, 0, [0xA1, 0x00, 0, 0]));
    assert_eq!(console.copy((0, 0x1F_FFFF), 0, (2, 0)), (0x02, 0, [0xA1, 0x1F, 0xFF, 0xFF]));
    // Destination: four sectors from 61 = 3Dh end at 64.
    assert_eq!(console.copy((0, 0), 1, (2, 61)), (0x02, 0, [0xA1, 0x40, 0, 0x3D]));
    assert_eq!(console.copy((0, 0), 1, (2, 0x1F_FFFF)), (0x02, 0, [0xA1, 0x5F, 0xFF, 0xFF]));
    // 5 × 128 bytes need two sectors of 512.
    assert_eq!(console.copy((2, 0), 5, (0, 67)), (0x42, 0, [0xA1, 0x00, 0, 0x43]));
    // Both: the source's.
    assert_eq!(console.copy((0, 68), 1, (2, 64)), (0x02, 0, [0xA1, 0x00, 0, 0x44]));
    console.has_buffer(&[]);
    console.has((2, 61), &[0x2D]);
    console.has((0, 67), &[0x0C, 0x0D, 0x0E, 0x0F]);
    // Just within.
    assert_eq!(console.copy((0, 0), 1, (2, 60)), (0x00, 4, [0, 0, 0, 0]));
    assert_eq!(console.copy((2, 0), 4, (0, 67)), (0x40, 1, [0, 0x40, 0, 0]));
    assert_eq!(console.copy((0, 66), 2, (1, 92)), (0x00, 4, [0, 0, 0, 0]));
}

/// Codes without an address name the destination by its drive bits: 32 × 3 = 60h.
fn destination_refused(console: &mut impl Console) {
    console.prepare();
    // Drive 3 is absent.
    for source in [0, 1, 2] {
        let end = (32 * source + 2, 0, [0x04, 0x60, 0, 0]);
        assert_eq!(console.copy((source, 0), 1, (3, 0)), end);
    }
    // Byte 5, bit 7, comes before it; so do all of the source's checks.
    let mut block = copy_block((1, 0), 1, (3, 0));
    block[5] |= 0x80;
    assert_eq!(console.send(block), (0x22, 0, [0x22, 0x60, 0, 0]));
    let mut block = copy_block((1, 96), 1, (3, 0));
    block[5] |= 0x80;
    assert_eq!(console.send(block), (0x22, 0, [0xA1, 0x20, 0, 0x60]));
    let mut block = copy_block((1, 0), 1, (1, 0));
    block[5] |= 0x80;
    assert_eq!(console.send(block), (0x22, 0, [0x22, 0x20, 0, 0]));
    console.has_buffer(&[]);
}

/// A destination without parameters, then with pending ones.
fn destination_not_ready(console: &mut impl Console) {
    console.prepare();
    assert_eq!(console.copy((0, 0), 1, (3, 0)), (0x02, 0, [0x0A, 0x60, 0, 0]));
    let mut block = copy_block((0, 0), 1, (3, 0));
    block[5] |= 0x80;
    assert_eq!(console.send(block), (0x02, 0, [0x22, 0x60, 0, 0]));
    console.initialize(3, &CONFIGS[3]);
    assert_eq!(console.copy((0, 0), 1, (3, 0)), (0x02, 0, [0x16, 0x60, 0, 0]));
    // 21h comes before 16h: four sectors from 13 end at 16.
    assert_eq!(console.copy((0, 0), 1, (3, 13)), (0x02, 0, [0xA1, 0x60, 0, 0x0D]));
    console.has_buffer(&[]);
    console.format(3);
    assert_eq!(console.copy((0, 0), 1, (3, 12)), (0x00, 4, [0, 0, 0, 0]));
    // A pending source, before anything of the destination.
    console.initialize(0, &[0, 3, 1, 0, 2, 0, 0, 0, 0, 0]);
    assert_eq!(console.copy((0, 0), 1, (3, 16)), (0x02, 0, [0x16, 0x00, 0, 0]));
    // 3 × 17 = 51 = 33h addresses.
    assert_eq!(console.copy((0, 51), 1, (3, 16)), (0x02, 0, [0xA1, 0x00, 0, 0x33]));
}

/// The source's checks; each stops before the destination's, here byte 5's bit 7.
fn source_refused(console: &mut impl Console) {
    let with_bits = |from: Place, control: u8| {
        let mut block = copy_block(from, 1, (2, 0));
        (block[5], block[9]) = (0xC0, control);
        block
    };
    // Not yet in use: drive 0 has no parameters, drive 3 is absent.
    assert_eq!(console.send(with_bits((0, 0), 0)), (0x02, 0, [0x0A, 0, 0, 0]));
    assert_eq!(console.send(with_bits((3, 0), 0)), (0x62, 0, [0x04, 0x60, 0, 0]));
    assert_eq!(console.send(with_bits((3, 0), 0x01)), (0x62, 0, [0x22, 0x60, 0, 0]));
    console.prepare();
    assert_eq!(console.send(with_bits((0, 0), 0)), (0x02, 0, [0x22, 0x40, 0, 0]));
    for bit in 0..7 {
        assert_eq!(console.send(with_bits((0, 0), 1 << bit)), (0x02, 0, [0x22, 0, 0, 0]));
    }
    // Byte 1, bit 7: 80h + 32 × 1 = A0h.
    let mut block = copy_block((1, 0), 1, (2, 0));
    block[1] = 0xA0;
    assert_eq!(console.send(block), (0x22, 0, [0x22, 0x20, 0, 0]));
    // Control bit 7 and the spare byte are without effect.
    let mut block = copy_block((1, 0), 1, (2, 0));
    (block[8], block[9]) = (0xFF, 0x80);
    assert_eq!(console.send(block), (0x20, 2, [0, 0x20, 0, 0]));
}

/// Ten bytes with 20h, six with any other first byte; else number 1, and all stays.
fn lengths(console: &mut impl Console) {
    console.prepare();
    for drive in 0..3 {
        console.leave_sense(drive);
    }
    let block = copy_block((0, 0), 1, (2, 0));
    let longer = [&block[..], &[0; 4]].concat();
    for length in (0..longer.len()).filter(|&length| length != 10) {
        refused(console, &longer[..length]);
    }
    for opcode in (0..=255).filter(|&opcode| opcode != 0x20) {
        refused(console, &[&[opcode][..], &block[1..]].concat());
    }
    for drive in 0..3 {
        assert_eq!(console.sense(drive), [0x20, 32 * drive, 0, 0]);
    }
    console.has_buffer(&[]);
    console.has((2, 0), &[0xF0, 0xF1, 0xF2, 0xF3]);
}

fn refused(console: &mut impl Console, block: &[u8]) {
    let Reply { answer, data } = console.command(block, &[0; 512], 512);
    let numbers = (answer.number, answer.status, answer.message, answer.sectors, answer.bytes);
    assert_eq!(numbers, (1, 0, 0, 0, 0), "{block:02X?}");
    assert!(data.is_empty());
}

/// A bad track of the source, 16 to 31 of drive 2: bytes that wait are dropped.
fn source_fault(console: &mut impl Console) {
    console.prepare();
    console.on_track(0x07, (2, 16), &[]);
    // 14 and 15 are read, two pieces short of a sector. 16 = 10h.
    assert_eq!(console.copy((2, 14), 5, (0, 20)), (0x42, 0, [0x99, 0x40, 0, 0x10]));
    console.has_buffer(&[]);
    console.has((0, 20), &[0x50, 0x51, 0x52, 0x53]);
    // 9 to 12 fill address 20; 13, 14, 15 wait.
    assert_eq!(console.copy((2, 9), 8, (0, 20)), (0x42, 1, [0x99, 0x40, 0, 0x10]));
    console.has_buffer(&[0xF9, 0xFA, 0xFB, 0xFC]);
    console.has((0, 20), &[0xF9, 0xFA, 0xFB, 0xFC]);
    // Nothing waits.
    assert_eq!(console.copy((2, 8), 9, (0, 30)), (0x42, 2, [0x99, 0x40, 0, 0x10]));
    console.has((0, 30), &[0xF8, 0xF9, 0xFA, 0xFB, 0xFC, 0xFD, 0xFE, 0xFF]);
    // The last source sector is bad: no 23h.
    assert_eq!(console.copy((2, 12), 5, (0, 40)), (0x42, 1, [0x99, 0x40, 0, 0x10]));
    console.has((0, 40), &[0xFC, 0xFD, 0xFE, 0xFF]);
}

/// A bad track of the destination: what was written before it stands.
fn destination_fault(console: &mut impl Console) {
    console.prepare();
    console.on_track(0x07, (2, 16), &[]);
    // Address 5 has 14h to 17h: two pieces go to 14 and 15, the third is for 16 = 10h.
    assert_eq!(console.copy((0, 5), 2, (2, 14)), (0x02, 2, [0x99, 0x40, 0, 0x10]));
    console.has_buffer(&[0x15]);
    console.has((2, 14), &[0x14, 0x15]);
    // None written.
    console.set_buffer();
    assert_eq!(console.copy((0, 5), 2, (2, 20)), (0x02, 0, [0x99, 0x40, 0, 0x14]));
    console.has_buffer(&[]);
    // The last, partly filled sector is not found: its own code, no 23h. 17 = 11h is bad now.
    console.on_track(0x07, (0, 17), &[]);
    assert_eq!(console.copy((2, 0), 5, (0, 16)), (0x42, 1, [0x99, 0x00, 0, 0x11]));
    console.has_buffer(&[0xF0, 0xF1, 0xF2, 0xF3]);
    console.has((0, 16), &[0xF0, 0xF1, 0xF2, 0xF3]);
}

/// Bad tracks on both sides, from 17 = 11h of drive 0 and from 16 = 10h of drive 2 on: the sector
/// that is searched for first ends the copy.
fn both_faults(console: &mut impl Console) {
    console.prepare();
    console.on_track(0x07, (0, 17), &[]);
    console.on_track(0x07, (2, 16), &[]);
    // 16 of drive 0 is read, 14 and 15 of drive 2 are written, then 16.
    assert_eq!(console.copy((0, 16), 2, (2, 14)), (0x02, 2, [0x99, 0x40, 0, 0x10]));
    console.has((2, 14), &[0x40, 0x41]);
    // All of it fits before 16 of drive 2, which would be next.
    assert_eq!(console.copy((0, 16), 2, (2, 12)), (0x02, 4, [0x99, 0x00, 0, 0x11]));
    console.has((2, 12), &[0x40, 0x41, 0x42, 0x43]);
    // The first sector of each is bad: nothing was read that could be searched for.
    assert_eq!(console.copy((0, 17), 2, (2, 16)), (0x02, 0, [0x99, 0x00, 0, 0x11]));
    // 12 to 15 are read for 17 of drive 0.
    assert_eq!(console.copy((2, 12), 5, (0, 17)), (0x42, 0, [0x99, 0x00, 0, 0x11]));
    // 13 to 15 are read, then 16 comes before 17 of drive 0.
    assert_eq!(console.copy((2, 13), 5, (0, 17)), (0x42, 0, [0x99, 0x40, 0, 0x10]));
}

/// Track 1 of drive 0, 17 to 33, moved to track 3, 51 to 67, which is taken.
fn moved_track(console: &mut impl Console) {
    console.prepare();
    console.on_track(0x0E, (0, 17), &[0, 0, 51]);
    // Four pieces to 16, four to 17 on the partner.
    assert_eq!(console.copy((2, 0), 8, (0, 16)), (0x40, 2, [0, 0x40, 0, 0]));
    assert!(console.read((0, 16)) == pieces(&[0xF0, 0xF1, 0xF2, 0xF3]));
    assert!(console.read((0, 17)) == pieces(&[0xF4, 0xF5, 0xF6, 0xF7]));
    assert!(console.read((0, 18)) == [0x6C; 512]);
    assert_eq!(console.copy((0, 16), 2, (1, 0)), (0x00, 4, [0, 0, 0, 0]));
    console.has((1, 0), &[0xF0, 0xF1, 0xF2, 0xF3, 0xF4, 0xF5, 0xF6, 0xF7]);
    // 50 is on track 2; 51 = 33h is taken.
    assert_eq!(console.copy((0, 50), 2, (1, 10)), (0x02, 2, [0x9C, 0x00, 0, 0x33]));
    assert_eq!(console.copy((1, 20), 4, (0, 50)), (0x22, 1, [0x9C, 0x00, 0, 0x33]));
    // Within the drive, from the moved track to another.
    assert_eq!(console.copy((0, 17), 1, (0, 0)), (0x00, 1, [0, 0, 0, 0]));
    console.has((0, 0), &[0xF4, 0xF5, 0xF6, 0xF7]);
}

/// A count of 0 is 256: from 272 sectors of 512 bytes to 1,024 of 128.
fn count_0(console: &mut impl Console) {
    console.initialize(0, &[0, 16, 1, 0, 2, 0, 0, 0, 0, 0]);
    console.initialize(2, &[0, 64, 1, 1, 0, 0, 0, 0, 0, 0]);
    console.format(0);
    console.format(2);
    for (address, byte) in [(15, 0xA0), (16, 0xB0), (271, 0xC0)] {
        console.write((0, address), &pieces(&[byte, byte + 1, byte + 2, byte + 3]));
    }
    // 256 sectors from 16 end at 271; 256 × 4 = 1,024.
    assert_eq!(console.copy((0, 16), 0, (2, 0)), (0x00, 1_024, [0, 0, 0, 0]));
    for (address, byte) in [(0, 0xB0), (3, 0xB3), (4, 0x6C), (1_019, 0x6C), (1_020, 0xC0)] {
        assert_eq!(console.read((2, address)), [byte; 128], "address {address}");
    }
    assert_eq!(console.copy((0, 17), 0, (2, 0)), (0x02, 0, [0xA1, 0x00, 0, 0x11]));
    assert_eq!(console.copy((0, 16), 0, (2, 1)), (0x02, 0, [0xA1, 0x40, 0, 0x01]));
    // 256 × 128 = 32,768 bytes: 64 sectors of 512.
    assert_eq!(console.copy((2, 768), 0, (0, 208)), (0x40, 64, [0, 0x40, 0, 0]));
    assert!(console.read((0, 271)) == pieces(&[0xC0, 0xC1, 0xC2, 0xC3]));
    assert!(console.read((0, 270)) == [0x6C; 512]);
}

/// Sixteen cylinders of 17 × 520 bytes, 64 of 2,176.
const LONG: [usize; 4] = [16 + 16 * 8_840, 0, 16 + 64 * 2_176, 0];

/// Everything that commands alone can show.
fn by_commands<C: Console>(fresh: impl Fn([usize; 4]) -> C) {
    let examples: [fn(&mut C); 13] = [
        larger_to_smaller,
        to_half_the_size,
        smaller_to_larger,
        to_twice_the_size,
        within_a_drive,
        past_the_end,
        destination_refused,
        source_refused,
        lengths,
        source_fault,
        destination_fault,
        both_faults,
        moved_track,
    ];
    for example in examples {
        example(&mut fresh(LENGTHS));
    }
    destination_not_ready(&mut fresh(FOUR));
    count_0(&mut fresh(LONG));
}

/// Where the slot of an address starts, on a drive without moved tracks.
fn slot((drive, address): Place) -> usize {
    16 + address as usize * (8 + SIZES[usize::from(drive)])
}

/// The sense of a code, 80h added, at a place.
fn sense(code: u8, place: Place) -> [u8; 4] {
    let [first, middle, low] = place_bytes(place);
    [code, first, middle, low]
}

/// Only the data of the destination sectors change, in all four images.
fn exact_images<E: Engine>(make: &impl Fn(&Controller) -> E) {
    let mut card = Card::fresh(make, FOUR);
    card.prepare();
    for image in &mut card.images {
        image.extend([0x77; 9]);
    }
    let mut expected = card.images.clone();
    // As in `smaller_to_larger`.
    assert_eq!(card.copy((2, 3), 6, (0, 20)), (0x42, 2, [0xA3, 0x00, 0, 0x15]));
    let start = slot((0, 20));
    expected[0][start + 8..start + 520].copy_from_slice(&pieces(&[0xF3, 0xF4, 0xF5, 0xF6]));
    expected[0][start + 528..start + 1_040].copy_from_slice(&pieces(&[0xF7, 0xF8, 0, 0]));
    assert!(card.images == expected, "128 to 512");
    // Address 3 of drive 0 has 0Ch to 0Fh.
    assert_eq!(card.copy((0, 3), 1, (2, 60)), (0x00, 4, [0, 0, 0, 0]));
    for (address, byte) in [(60, 0x0C), (61, 0x0D), (62, 0x0E), (63, 0x0F)] {
        let start = slot((2, address));
        expected[2][start + 8..start + 136].fill(byte);
    }
    assert!(card.images == expected, "512 to 128");
    assert_eq!(card.copy((1, 0), 2, (1, 94)), (0x20, 2, [0, 0x20, 0, 0]));
    let start = slot((1, 94));
    expected[1][start + 8..start + 264].copy_from_slice(&pieces(&[0x80, 0x81]));
    expected[1][start + 272..start + 528].copy_from_slice(&pieces(&[0x82, 0x83]));
    assert!(card.images == expected, "within drive 1");
}

/// What damage of a track's slot 0 gives: the byte, its value and the code. Flag 2 names track 0
/// as partner, which is not taken.
const DAMAGE: [(usize, u8, u8); 10] = [
    (0, 0xA0, 0x92),
    (1, 9, 0x95),
    (2, 9, 0x95),
    (3, 9, 0x95),
    (4, 0x1F, 0x94),
    (5, 1, 0x99),
    (5, 2, 0x9E),
    (5, 3, 0x9C),
    (5, 4, 0x90),
    (5, 0xFF, 0x90),
];

/// The first sectors of drives' second tracks.
const SECOND_TRACKS: [Place; 3] = [(0, 17), (1, 32), (2, 16)];

/// Each code on either side, on each drive: a copy of four source sectors, one of them before the
/// damaged track or the first destination sector before it.
fn finding<E: Engine>(make: &impl Fn(&Controller) -> E) {
    let mut card = Card::fresh(make, LENGTHS);
    card.prepare();
    let images = card.images.clone();
    for (drive, address) in SECOND_TRACKS {
        for (at, byte, code) in DAMAGE {
            card.images.clone_from(&images);
            card.images[usize::from(drive)][slot((drive, address)) + at] = byte;
            for other in (0..3).filter(|&other| other != drive) {
                let [own, others] = [drive, other].map(|drive| SIZES[usize::from(drive)]);
                // As source: one sector is read, and fills as many as it can.
                let end = card.copy((drive, address - 1), 4, (other, 4));
                let done = (own / others) as u16;
                assert_eq!(end, (32 * drive + 2, done, sense(code, (drive, address))));
                // As destination: one is written, the next is not found. Four sectors of 128 bytes
                // fill no more than one of 512.
                let count = if others < own { 2 * own / others } else { 4 };
                let end = card.copy((other, 40), count as u8, (drive, address - 1));
                assert_eq!(end, (32 * other + 2, 1, sense(code, (drive, address))));
            }
        }
    }
}

/// Of two slots that hold a sector the first is read and written.
fn first_of_two<E: Engine>(make: &impl Fn(&Controller) -> E) {
    let mut card = Card::fresh(make, LENGTHS);
    card.prepare();
    // Slots 2 and 5 of drive 2 hold sector 5, slots 2 and 5 of drive 1 sector 2.
    card.images[2][slot((2, 2)) + 4] = 5;
    card.images[1][slot((1, 5)) + 4] = 2;
    let mut expected = card.images.clone();
    // Slot 2 of drive 2 has F2h; half a sector is missing.
    assert_eq!(card.copy((2, 5), 1, (1, 2)), (0x42, 1, [0xA3, 0x20, 0, 0x02]));
    expected[1][slot((1, 2)) + 8..][..256].copy_from_slice(&pieces(&[0xF2, 0]));
    assert!(card.images == expected, "to the first slot");
    // Back again, with the zeros: F2h to slot 2, the zeros to sector 6.
    assert_eq!(card.copy((1, 2), 1, (2, 5)), (0x20, 2, [0, 0x20, 0, 0]));
    expected[2][slot((2, 6)) + 8..][..128].fill(0);
    assert!(card.images == expected, "from the first slot");
}

fn all<E: Engine>(make: &impl Fn(&Controller) -> E) {
    by_commands(|lengths| Card::fresh(make, lengths));
    exact_images(make);
    finding(make);
    first_of_two(make);
    examples::copy_frames(make);
}

#[test]
fn machine_copies() {
    by_commands(Machine::fresh);
}

#[test]
fn plain_copies() {
    all(&Controller::clone);
}

#[test]
fn proved_copies() {
    all(&Proved::from_record);
}
