//! Good, failed and refused: of a save that does not happen the status alone does not tell.

use lanthewg::*;

const LENGTH: usize = 25_360;

/// Drive 1 is a formatted hard disk; the others are absent.
fn formatted() -> (Controller, Vec<u8>) {
    let mut disk = vec![0; LENGTH];
    let mut card = Controller::fresh([&[]; 4]);
    let config = [0, 3, 1, 0, 1, 0, 0, 0, 0, 11];
    for (block, given) in [
        ([OPCODE_INITIALIZE, 32, 0, 0, 0, 0], &config[..]),
        ([OPCODE_FORMAT_DRIVE, 32, 0, 0, 1, 0], &[]),
    ] {
        let images = [&mut [], &mut disk[..], &mut [], &mut []];
        assert!(card.execute(&block, given, &mut [], images).is_good());
    }
    (card, disk)
}

fn told(answer: Answer) -> (bool, bool, bool) {
    (answer.is_good(), answer.is_failed(), answer.is_refused())
}

/// A save of one sector, with so many bytes.
fn save(address: u8, bytes: usize, block_size: usize) -> (Answer, bool) {
    let (mut card, mut disk) = formatted();
    let before = disk.clone();
    let block = [OPCODE_WRITE, 32, 0, address, 1, 0];
    let answer = card.execute(
        &block[..block_size],
        &vec![0xAA; bytes],
        &mut [],
        [&mut [], &mut disk, &mut [], &mut []],
    );
    (answer, disk != before)
}

#[test]
fn a_good_save_has_drive_bits() {
    let (answer, changed) = save(95, 256, 6);
    assert_eq!((answer.number, answer.status, answer.sectors), (0, 0x20, 1));
    assert_eq!(told(answer), (true, false, false));
    assert!(changed);
}

#[test]
fn a_failed_save() {
    let (answer, changed) = save(96, 256, 6);
    assert_eq!((answer.number, answer.status, answer.sectors), (0, 0x22, 0));
    assert_eq!(told(answer), (false, true, false));
    assert!(!changed);
}

#[test]
fn a_refused_save_has_status_0() {
    for (bytes, block_size, number) in [(255, 6, REFUSED_GIVEN), (256, 5, REFUSED_BLOCK)] {
        let (answer, changed) = save(95, bytes, block_size);
        assert_eq!((answer.number, answer.status, answer.sectors), (number, 0, 0));
        assert_eq!(told(answer), (false, false, true));
        assert!(!changed);
    }
}

#[test]
fn a_refused_read_has_status_0() {
    let (mut card, mut disk) = formatted();
    let mut area = [7; 255];
    let answer = card.execute(
        &[OPCODE_READ, 32, 0, 0, 1, 0],
        &[],
        &mut area,
        [&mut [], &mut disk, &mut [], &mut []],
    );
    assert_eq!((answer.number, answer.status, answer.bytes), (REFUSED_AREA, 0, 0));
    assert_eq!(told(answer), (false, false, true));
    assert_eq!(area, [7; 255]);
}
