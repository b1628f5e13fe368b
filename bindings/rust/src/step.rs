use crate::answer::refused;
use crate::{Answer, Rate, Slot, Vector, STEP};

// What a step is, in its octet 0; octet 1 is the mask, and from 2 on is the frame or the vector.
const VOICE: u8 = 1;
const LOST: u8 = 2;
const ANNOUNCE: u8 = 3;
const HEARD: u8 = 4;
const LENT: usize = 2;

/// A slot, a loss or a vector of a recording, to be taken by [`Call::batch`](crate::Call::batch).
#[derive(Clone, Copy, Debug, PartialEq, Eq)]
#[repr(transparent)] // lent to the library as it lies
pub struct Step([u8; STEP]);

impl Step {
    /// A slot, as [`Call::voice`](crate::Call::voice). The frame is as long as the call's rate
    /// says. A step does not know the call: a frame of the other rate is not refused, but answered
    /// as turned, and what comes out is noise.
    ///
    /// Refuses `WrongLength` (a frame of neither rate).
    pub fn voice(mask: u8, frame: &[u8]) -> Result<Step, Answer> {
        if ![Rate::Half, Rate::Full].iter().any(|rate| rate.frame_octets() == frame.len()) {
            return Err(Answer::WrongLength);
        }
        Ok(Step::of(VOICE, mask, frame))
    }

    /// A slot that did not arrive, as [`Call::lost`](crate::Call::lost).
    pub fn lost() -> Step {
        Step::of(LOST, 0, &[])
    }

    /// The vector of the session that starts now, as [`Call::announce`](crate::Call::announce).
    pub fn announce(vector: Vector) -> Step {
        Step::of(ANNOUNCE, 0, &vector)
    }

    /// A vector that was heard with the slot before, as [`Call::heard`](crate::Call::heard).
    pub fn heard(vector: Vector) -> Step {
        Step::of(HEARD, 0, &vector)
    }

    /// The frame of a slot, turned once its batch was taken; of other steps nothing of use.
    pub fn frame(&self, rate: Rate) -> &[u8] {
        &self.0[LENT..LENT + rate.frame_octets()]
    }

    fn of(kind: u8, mask: u8, lent: &[u8]) -> Step {
        let mut octets = [0; STEP];
        (octets[0], octets[1]) = (kind, mask);
        octets[LENT..LENT + lent.len()].copy_from_slice(lent);
        Step(octets)
    }
}

/// What the number of an answer to a step of [`Call::batch`](crate::Call::batch) says. A loss or a
/// vector that is taken is [`Slot::Turned`] too.
pub fn answered(number: u8) -> Result<Slot, Answer> {
    match number {
        0 => Ok(Slot::Turned),
        1 => Ok(Slot::Held),
        _ => Err(refused(number)),
    }
}
