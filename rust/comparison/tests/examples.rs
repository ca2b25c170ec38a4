//! The document's examples, on the plain engine and on the proved library.

use comparison::examples;
use comparison::plain::Controller;
use comparison::proved::Proved;

#[test]
fn plain_ten_examples() {
    examples::ten_examples(&Controller::clone);
}

#[test]
fn plain_frames() {
    examples::frames_session(&Controller::clone);
    examples::more_frames(&Controller::clone);
}

#[test]
fn proved_ten_examples() {
    examples::ten_examples(&Proved::from_record);
}

#[test]
fn proved_frames() {
    examples::frames_session(&Proved::from_record);
    examples::more_frames(&Proved::from_record);
}
