//! A disk whose label an earlier card wrote, with precompensation at cylinder 40,000 of its 3.

use lanthewg::*;

const OLD: [u8; 10] = [0, 3, 1, 0, 1, 0, 0, 0x9C, 0x40, 11];

struct Bench {
    card: Controller,
    disk: Vec<u8>,
    area: [u8; 256],
}

impl Bench {
    /// The answer's good end, and the sense code after it.
    fn call(&mut self, opcode: u8, address: u8, given: &[u8]) -> (bool, u8) {
        let block = [opcode, 0, 0, address, 1, 0];
        let answer = self.card.execute(&block, given, &mut self.area, images(&mut self.disk));
        let mut sense = [0; SENSE_SIZE];
        let asks = [OPCODE_REQUEST_SENSE, 0, 0, 0, 0, 0];
        self.card.execute(&asks, &[], &mut sense, images(&mut self.disk));
        (answer.is_good(), sense[0])
    }

    /// The map is read.
    fn reads_the_map(&mut self) {
        self.area.fill(0);
        assert_eq!(self.call(OPCODE_READ, 0, &[]), (true, 0));
        assert_eq!(self.area, [0xAA; 256]);
    }

    fn restart(&mut self) {
        self.card.reset([&self.disk, &[], &[], &[]]);
    }
}

fn images(disk: &mut [u8]) -> [&mut [u8]; 4] {
    [disk, &mut [], &mut [], &mut []]
}

/// After a Reset; a map is at address 0.
fn old_disk() -> Bench {
    let mut bench =
        Bench { card: Controller::fresh([&[]; 4]), disk: vec![0; 25_360], area: [0; 256] };
    for (opcode, given) in [
        (OPCODE_INITIALIZE, &[0, 3, 1, 0, 1, 0, 0, 0, 0, 11][..]),
        (OPCODE_FORMAT_DRIVE, &[]),
        (OPCODE_WRITE, &[0xAA; 256]),
    ] {
        assert!(bench.call(opcode, 0, given).0);
    }
    bench.disk[..10].copy_from_slice(&OLD);
    bench.restart();
    bench
}

#[test]
fn it_is_used_as_before() {
    let mut bench = old_disk();
    bench.reads_the_map();
    assert_eq!(bench.call(OPCODE_INITIALIZE, 0, &OLD), (true, 0));
    bench.reads_the_map();
}

#[test]
fn other_bytes_are_refused_and_lose_nothing() {
    let mut bench = old_disk();
    let (before, mut other) = (bench.disk.clone(), OLD);
    other[3] = 1;
    assert_eq!(bench.call(OPCODE_INITIALIZE, 0, &other), (false, SENSE_NOT_VALID));
    bench.reads_the_map();
    assert!(bench.disk == before);
}

#[test]
fn format_drive_writes_the_label_again() {
    let mut bench = old_disk();
    bench.disk[..LABEL_SIZE].fill(0xEE);
    assert_eq!(bench.call(OPCODE_FORMAT_DRIVE, 64, &[]), (true, 0));
    assert_eq!(bench.disk[..10], OLD);
    assert_eq!(bench.disk[10..LABEL_SIZE], [0; 6]);
    bench.restart();
    bench.reads_the_map();
}

/// The cylinder count itself is good, and comes into force with a Format Drive, as any change does.
#[test]
fn it_is_put_right_by_a_format() {
    let mut bench = old_disk();
    let mut right = OLD;
    right[7..9].copy_from_slice(&[0, 4]);
    assert_eq!(bench.call(OPCODE_INITIALIZE, 0, &right), (false, SENSE_NOT_VALID));
    right[8] = 3;
    assert_eq!(bench.call(OPCODE_INITIALIZE, 0, &right), (true, 0));
    assert_eq!(bench.call(OPCODE_READ, 0, &[]), (false, SENSE_PENDING));
    assert_eq!(bench.call(OPCODE_FORMAT_DRIVE, 0, &[]), (true, 0));
    assert_eq!(bench.disk[..10], right);
}
