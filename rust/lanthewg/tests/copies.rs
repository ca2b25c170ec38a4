//! Copy Blocks as a caller meets it: ten bytes, two drives, sectors of the destination, and a failure
//! that has written everything.

use lanthewg::*;

/// Drive 1 is a hard disk of three tracks with 256 bytes a sector, drive 3 a floppy of four tracks with
/// 128. Both are formatted; the others are absent.
struct Drives {
    card: Controller,
    disk: Vec<u8>,
    floppy: Vec<u8>,
}

const DISK: u8 = 1 << 5;
const FLOPPY: u8 = 3 << 5;

impl Drives {
    fn new() -> Drives {
        let card = Controller::fresh([&[]; 4]);
        let mut drives = Drives { card, disk: vec![0; 25_360], floppy: vec![0; 8_720] };
        drives.good(&[OPCODE_INITIALIZE, DISK, 0, 0, 0, 0], &[0, 3, 1, 0, 1, 0, 0, 0, 0, 11]);
        drives.good(&[OPCODE_FORMAT_DRIVE, DISK, 0, 0, 1, 0], &[]);
        drives.good(&[OPCODE_INITIALIZE, FLOPPY, 0, 0, 0, 0], &[0, 2, 2, 1, 0, 0, 0, 0, 0, 0]);
        drives.good(&[OPCODE_FORMAT_DRIVE, FLOPPY, 0, 0, 1, 0], &[]);
        drives
    }

    fn call(&mut self, block: &[u8], given: &[u8], area: &mut [u8]) -> Answer {
        let images = [&mut [], &mut self.disk[..], &mut [], &mut self.floppy[..]];
        self.card.execute(block, given, area, images)
    }

    fn good(&mut self, block: &[u8], given: &[u8]) {
        assert!(self.call(block, given, &mut []).is_good(), "{block:02X?}");
    }

    /// Sectors of a drive, from an address on.
    fn read(&mut self, drive: u8, address: u8, count: u8, bytes: usize) -> Vec<u8> {
        let mut area = vec![0; bytes];
        let answer = self.call(&[OPCODE_READ, drive, 0, address, count, 0], &[], &mut area);
        assert!(answer.is_good());
        assert_eq!((u32::try_from(bytes), answer.sectors), (Ok(answer.bytes), u16::from(count)));
        area
    }
}

/// Bytes of which no two sectors are the same.
fn maps(count: usize) -> Vec<u8> {
    (0..count).map(|i| (i % 251) as u8).collect()
}

#[test]
fn a_block_of_ten_bytes_and_no_other() {
    let block = [OPCODE_COPY, DISK, 0, 0, 1, FLOPPY, 0, 0, 0, 0, 0];
    for size in (0..=block.len()).filter(|size| *size != COPY_BLOCK_SIZE) {
        let mut drives = Drives::new();
        let before = (drives.card.clone(), drives.disk.clone(), drives.floppy.clone());
        let answer = drives.call(&block[..size], &[], &mut []);
        assert!(answer.is_refused() && !answer.is_good(), "{size}");
        assert_eq!((answer.number, answer.status, answer.sectors), (REFUSED_BLOCK, 0, 0));
        assert_eq!(before, (drives.card, drives.disk, drives.floppy));
    }
    let mut drives = Drives::new();
    drives.good(&block[..COPY_BLOCK_SIZE], &[]);
    // Ten bytes are too many for any other.
    let answer = drives.call(&[OPCODE_TEST_READY, DISK, 0, 0, 0, 0, 0, 0, 0, 0], &[], &mut []);
    assert_eq!((answer.number, answer.status), (REFUSED_BLOCK, 0));
}

#[test]
fn sectors_are_the_destinations_and_only_its_image_changes() {
    let mut drives = Drives::new();
    drives.good(&[OPCODE_WRITE, DISK, 0, 30, 3, 0], &maps(768));
    let (disk, sense) = (drives.disk.clone(), drives.card.drives[3].sense);
    let mut area = [9; 4];
    let answer =
        drives.call(&[OPCODE_COPY, DISK, 0, 30, 3, FLOPPY, 0, 14, 0, 0], &[1; 99], &mut area);
    assert!(answer.is_good());
    // Three sectors of 256 bytes are six of 128. The status is the source's, and nothing is handed over.
    assert_eq!((answer.status, answer.sectors, answer.bytes), (DISK, 6, 0));
    assert_eq!((area, drives.disk == disk, drives.card.drives[3].sense), ([9; 4], true, sense));
    assert_eq!(drives.read(FLOPPY, 14, 6, 768), maps(768));
    assert_eq!(drives.read(FLOPPY, 13, 1, 128), [0xE5; 128]);
    assert_eq!(drives.read(FLOPPY, 20, 1, 128), [0xE5; 128]);
}

#[test]
fn partly_filled_is_a_failure_that_has_written_all() {
    let mut drives = Drives::new();
    drives.good(&[OPCODE_WRITE, FLOPPY, 0, 5, 3, 0], &maps(384));
    let floppy = drives.floppy.clone();
    let answer = drives.call(&[OPCODE_COPY, FLOPPY, 0, 5, 3, DISK, 0, 31, 0, 0], &[], &mut []);
    assert!(answer.is_failed() && !answer.is_good());
    assert_eq!((answer.status, answer.sectors), (FLOPPY + STATUS_ERROR, 2));
    // Asked of the source, the sense names the destination's last sector.
    let mut sense = [0; SENSE_SIZE];
    let asked = drives.call(&[OPCODE_REQUEST_SENSE, FLOPPY, 0, 0, 0, 0], &[], &mut sense);
    assert!(asked.is_good());
    assert_eq!(sense, [SENSE_PARTLY_FILLED + SENSE_ADDRESS, DISK, 0, 32]);
    let mut wanted = maps(384);
    wanted.resize(512, 0);
    assert_eq!(drives.read(DISK, 31, 2, 512), wanted);
    assert!(drives.floppy == floppy);
    // Four sectors fill two, and it is good.
    drives.good(&[OPCODE_COPY, FLOPPY, 0, 5, 4, DISK, 0, 31, 0, 0], &[]);
}

#[test]
fn a_copy_that_fails_midway_leaves_what_it_counts() {
    let mut drives = Drives::new();
    drives.good(&[OPCODE_WRITE, DISK, 0, 0, 2, 0], &maps(512));
    drives.good(&[OPCODE_FORMAT_BAD_TRACK, FLOPPY, 0, 16, 1, 0], &[]);
    // Three of the four sectors are before the bad track.
    let answer = drives.call(&[OPCODE_COPY, DISK, 0, 0, 2, FLOPPY, 0, 13, 0, 0], &[], &mut []);
    assert!(answer.is_failed());
    assert_eq!((answer.status, answer.sectors), (DISK + STATUS_ERROR, 3));
    let sense = [SENSE_BAD_TRACK + SENSE_ADDRESS, FLOPPY, 0, 16];
    assert_eq!(drives.card.drives[1].sense, sense);
    assert_eq!(drives.read(FLOPPY, 13, 3, 384), maps(512)[..384]);
}
