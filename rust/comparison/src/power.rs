//! Power that fails while a track is moved with its contents (request E7): wherever the command's
//! writes are cut, after a Reset every address outside B reads as before the command, and until A's
//! slot 0 is written the same command can be sent again and makes the same image.
//!
//! The writes and their order are the request's: each is an ID or one slot's data, and each place is
//! written once, so that what a write puts there is what the engine under trial left in the end. Of the
//! one under way an ID is old or new as a whole, and data are anything.

mod starts;

use std::fmt;
use std::ops::{AddAssign, Range};

use crate::engine::{lent, lent_mut, Call, Engine};
use crate::outcome::{Outcome, Setting};
use crate::paper::{self, Geometry, Place, ID};
use crate::plain::{Answer, Controller};
use crate::random::Random;

pub use starts::{all as all_starts, Start};

/// A single write of the command.
#[derive(Clone, Copy, Debug, PartialEq, Eq)]
pub enum Write {
    Id { track: u32, slot: u32 },
    Data { track: u32, slot: u32 },
}

impl Write {
    fn place(self, geometry: &Geometry) -> Range<usize> {
        match self {
            Write::Id { track, slot } => {
                let start = geometry.slot(track, slot).start;
                start..start + ID
            }
            Write::Data { track, slot } => geometry.slot_data(track, slot),
        }
    }

    /// What may be left of it where it is cut, besides all old and all new.
    pub fn tears(self, geometry: &Geometry) -> Vec<Tear> {
        match self {
            Write::Id { .. } => Vec::new(),
            Write::Data { .. } => {
                vec![Tear::All(0x00), Tear::All(0xFF), Tear::Front(geometry.data / 2), Tear::Random]
            }
        }
    }
}

/// What a write that is cut leaves in its place.
#[derive(Clone, Copy, Debug, PartialEq, Eq)]
pub enum Tear {
    /// One byte everywhere.
    All(u8),
    /// So many new bytes, and the others old.
    Front(usize),
    Random,
}

impl Tear {
    /// Makes the place, which holds the old bytes, what is left.
    fn leave(self, place: &mut [u8], new: &[u8], random: &mut Random) {
        match self {
            Tear::All(byte) => place.fill(byte),
            Tear::Front(length) => place[..length].copy_from_slice(&new[..length]),
            Tear::Random => random.fill(place),
        }
    }
}

/// The writes in the request's order: all B's slots, then A's slot 0 ID alone, then A's other IDs.
/// Within B, which the request leaves open, slot after slot, the ID first.
pub fn writes(start: &Start) -> Vec<Write> {
    let (slots, (a, b)) = (0..start.geometry.sectors, (start.a, start.b));
    let to_b = |slot| [Write::Id { track: b, slot }, Write::Data { track: b, slot }];
    let to_a = |slot| Write::Id { track: a, slot };
    slots.clone().flat_map(to_b).chain(slots.map(to_a)).collect()
}

/// How much was tried.
#[derive(Clone, Copy, Debug, Default, PartialEq, Eq)]
pub struct Tried {
    pub starts: u64,
    pub cuts: u64,
    pub reads: u64,
    /// Cuts after which the command was sent again and went well.
    pub resent: u64,
    /// Cuts after which A was moved, so that it gave 1Dh.
    pub moved: u64,
}

impl AddAssign for Tried {
    fn add_assign(&mut self, other: Tried) {
        self.starts += other.starts;
        self.cuts += other.cuts;
        self.reads += other.reads;
        self.resent += other.resent;
        self.moved += other.moved;
    }
}

impl fmt::Display for Tried {
    fn fmt(&self, f: &mut fmt::Formatter) -> fmt::Result {
        let Tried { starts, cuts, reads, resent, moved } = self;
        write!(f, "power failed {cuts} times in {starts} assignments, {reads} reads; ")?;
        write!(f, "{resent} times it was sent again, {moved} times A was moved")
    }
}

/// Tries every cut of a start's command.
pub fn try_start<E: Engine>(
    make: &impl Fn(&Controller) -> E,
    start: &Start,
) -> Result<Tried, String> {
    let tears = |write: Write| write.tears(&start.geometry);
    try_writes(make, start, &writes(start), &tears)
}

/// The same with these writes, each torn so. An ID is not to be torn, and the order is not to be
/// another: with these the trial has to fail.
pub fn try_writes<E: Engine>(
    make: &impl Fn(&Controller) -> E,
    start: &Start,
    writes: &[Write],
    tears: &impl Fn(Write) -> Vec<Tear>,
) -> Result<Tried, String> {
    let mut trial = Trial::new(make, start).map_err(|what| format!("{}: {what}", start.name))?;
    trial.try_cuts(writes, tears).map_err(|what| format!("{}: {what}", start.name))?;
    Ok(trial.tried)
}

/// What a Read of one address came to.
#[derive(Clone, Debug, PartialEq, Eq)]
struct Reading {
    answer: Answer,
    area: Vec<u8>,
    sense: [u8; 4],
}

/// What the data area holds before a Read.
const LENT: u8 = 0xEE;

/// An engine with the drive of a start.
struct Trial<'a, E> {
    start: &'a Start,
    engine: E,
    /// The drive's is the one under trial; the others are absent.
    images: [Vec<u8>; 4],
    /// What each address outside B reads before the command.
    before: Vec<(u32, Reading)>,
    /// The image after the whole command.
    done: Vec<u8>,
    random: Random,
    tried: Tried,
}

impl<'a, E: Engine> Trial<'a, E> {
    fn new(make: &impl Fn(&Controller) -> E, start: &'a Start) -> Result<Trial<'a, E>, String> {
        let mut trial = Trial {
            start,
            engine: make(&Controller::fresh([&[]; 4])),
            images: Default::default(),
            before: Vec::new(),
            done: Vec::new(),
            random: Random::new(7),
            tried: Tried { starts: 1, ..Tried::default() },
        };
        trial.restart(&start.image);
        trial.before = trial.outside_b().map(|address| (address, trial.read(address))).collect();
        trial.done = trial.whole_command()?;
        Ok(trial)
    }

    fn outside_b(&self) -> impl Iterator<Item = u32> {
        let (geometry, b) = (self.start.geometry, self.start.b);
        (0..geometry.addresses()).filter(move |&address| geometry.split(address).0 != b)
    }

    fn image(&mut self) -> &mut Vec<u8> {
        &mut self.images[self.start.drive]
    }

    fn sense(&self) -> [u8; 4] {
        self.engine.record().drives[self.start.drive].sense
    }

    /// Power is back: a Reset with this image.
    fn restart(&mut self, image: &[u8]) {
        let lent_image = self.image();
        lent_image.clear();
        lent_image.extend_from_slice(image);
        self.engine.reset(lent(&self.images));
    }

    fn read(&mut self, address: u32) -> Reading {
        let mut area = vec![LENT; self.start.geometry.data + 1];
        let block = self.start.block(0x08, address, 1, 0);
        let answer = self.engine.execute(&block, &[], &mut area, lent_mut(&mut self.images));
        Reading { answer, area, sense: self.sense() }
    }

    fn send(&mut self) -> Answer {
        let (block, given) = (self.start.command(), self.start.alternate());
        self.engine.execute(&block, &given, &mut [], lent_mut(&mut self.images))
    }

    /// The command without a cut, whose outcome is the document's: the image that it leaves.
    fn whole_command(&mut self) -> Result<Vec<u8>, String> {
        self.restart(&self.start.image);
        let controller = self.engine.record();
        let before = Setting { controller, area: Vec::new(), images: self.images.clone() };
        let (block, given) = (self.start.command().to_vec(), self.start.alternate().to_vec());
        let call = Call::Execute { block, given };
        let found = Outcome::by(&mut self.engine, before.clone(), &call);
        Outcome::of(before, &call).compare(&found).map_err(|what| format!("uncut: {what}"))?;
        if found.answer != self.start.good() {
            return Err(format!("uncut: {:02X?}", found.answer));
        }
        Ok(found.setting.images[self.start.drive].clone())
    }

    /// One write after the other, each cut in every way; then all of them are done.
    fn try_cuts(
        &mut self,
        writes: &[Write],
        tears: &impl Fn(Write) -> Vec<Tear>,
    ) -> Result<(), String> {
        let mut image = self.start.image.clone();
        for (k, &write) in writes.iter().enumerate() {
            let at = |what| format!("{k} writes done, {write:02X?} {what}");
            self.try_cut(&image).map_err(|what| at(format!("not begun: {what}")))?;
            let place = write.place(&self.start.geometry);
            let (old, new) = (image[place.clone()].to_vec(), self.done[place.clone()].to_vec());
            for tear in tears(write) {
                tear.leave(&mut image[place.clone()], &new, &mut self.random);
                self.try_cut(&image).map_err(|what| at(format!("torn, {tear:02X?}: {what}")))?;
                image[place.clone()].copy_from_slice(&old);
            }
            image[place].copy_from_slice(&new);
        }
        self.try_cut(&image).map_err(|what| format!("all writes done: {what}"))?;
        if image != self.done {
            return Err("these are not all the command's writes".to_string());
        }
        Ok(())
    }

    /// Power has left this image.
    fn try_cut(&mut self, image: &[u8]) -> Result<(), String> {
        self.tried.cuts += 1;
        self.restart(image);
        self.reads_as_before()?;
        if self.image() != image {
            return Err("a Read changed the image".to_string());
        }
        let first = Write::Id { track: self.start.a, slot: 0 }.place(&self.start.geometry);
        self.restart(image);
        if image[first.clone()] == self.start.image[first.clone()] {
            self.tried.resent += 1;
            self.can_be_sent_again()
        } else if image[first.clone()] == self.done[first] {
            self.tried.moved += 1;
            self.is_moved(image)
        } else {
            Err("A's slot 0 is neither old nor new".to_string())
        }
    }

    fn reads_as_before(&mut self) -> Result<(), String> {
        for k in 0..self.before.len() {
            let address = self.before[k].0;
            let (found, expected) = (self.read(address), &self.before[k].1);
            self.tried.reads += 1;
            if found != *expected {
                let place = self.start.geometry.split(address);
                let how = difference(expected, &found);
                return Err(format!("address {address}, track and sector {place:?}: {how}"));
            }
        }
        Ok(())
    }

    /// The same command goes well and leaves the image that it leaves uncut.
    fn can_be_sent_again(&mut self) -> Result<(), String> {
        let answer = self.send();
        let sense = self.sense();
        if answer != self.start.good() || sense != paper::good_sense(self.start.drive) {
            return Err(format!("sent again: {answer:02X?}, sense {sense:02X?}"));
        }
        if self.images[self.start.drive] != self.done {
            return Err("sent again: another image".to_string());
        }
        Ok(())
    }

    /// The same command finds A moved.
    fn is_moved(&mut self, image: &[u8]) -> Result<(), String> {
        let (answer, sense) = (self.send(), self.sense());
        let Start { drive, address, .. } = *self.start;
        let fault = Place { drive, address }.fault(0x1D);
        let failed = Answer { status: 32 * drive as u8 + 2, ..Answer::default() };
        if answer != failed || sense != paper::sense(fault) {
            return Err(format!("sent again to a moved track: {answer:02X?}, sense {sense:02X?}"));
        }
        if self.image() != image {
            return Err("refused, and the image is another".to_string());
        }
        Ok(())
    }
}

/// What differs first of two Reads.
fn difference(expected: &Reading, found: &Reading) -> String {
    if expected.answer != found.answer {
        format!("{:02X?} before, now {:02X?}", expected.answer, found.answer)
    } else if expected.sense != found.sense {
        format!("sense {:02X?} before, now {:02X?}", expected.sense, found.sense)
    } else {
        "the data are not those of before".to_string()
    }
}
