//! The numbers that operations are given, as enums: one out of range can't be written.
use crate::Answer;

/// The cipher of a key.
#[derive(Clone, Copy, Debug, PartialEq, Eq, Hash)]
#[repr(u8)]
pub enum Cipher {
    /// The 15-bit scrambler.
    Scramble = 1,
    /// DES.
    Des = 2,
    /// AES with 256-bit keys.
    Aes = 3,
}

impl Cipher {
    /// The octets of a key: 2, 8 or 32.
    pub const fn key_octets(self) -> usize {
        match self {
            Cipher::Scramble => 2,
            Cipher::Des => 8,
            Cipher::Aes => 32,
        }
    }

    pub(crate) fn of(number: u8) -> Result<Cipher, Answer> {
        match number {
            1 => Ok(Cipher::Scramble),
            2 => Ok(Cipher::Des),
            3 => Ok(Cipher::Aes),
            _ => Err(Answer::Unlisted),
        }
    }
}

/// Which of the vocoder's two voices a call has, from its opening on.
#[derive(Clone, Copy, Debug, PartialEq, Eq, Hash)]
#[repr(u8)]
pub enum Rate {
    /// Words of 49 bits, in seven octets.
    Half = 0,
    /// Words of 72 bits, in nine octets.
    Full = 1,
}

impl Rate {
    /// The octets of a voice slot's frame, of four words: 28 or 36.
    pub const fn frame_octets(self) -> usize {
        match self {
            Rate::Half => 28,
            Rate::Full => 36,
        }
    }

    pub(crate) fn of(number: u8) -> Result<Rate, Answer> {
        match number {
            0 => Ok(Rate::Half),
            1 => Ok(Rate::Full),
            _ => Err(Answer::Unlisted),
        }
    }
}

/// What a receiver does in a session whose vector it was not told.
#[derive(Clone, Copy, Debug, PartialEq, Eq, Hash)]
#[repr(u8)]
pub enum Strictness {
    /// It goes on with the generator's next vector where it knew the last one. A sender whose
    /// vectors are not the generator's is then handed out as noise.
    Handset = 0,
    /// It holds: nothing is handed out that was not announced.
    Recorder = 1,
}

/// What a packet is opened for.
#[derive(Clone, Copy, Debug, PartialEq, Eq, Hash)]
#[repr(u8)]
pub enum Use {
    /// Its messages come from the air; its vector may be anything.
    ToReceive = 0,
    /// Its messages go on the air; a DES or AES vector is not all zeros.
    ToSend = 1,
}

/// The kind of a packet's messages.
#[derive(Clone, Copy, Debug, PartialEq, Eq, Hash)]
#[repr(u8)]
pub enum Kind {
    /// DCALL, 22 octets.
    Dcall = 1,
    /// SDCALL inbound, 16 octets.
    SdcallInbound = 2,
    /// SDCALL outbound, 18 octets.
    SdcallOutbound = 3,
    /// FACCH1, 10 octets.
    Facch1 = 4,
}

impl Kind {
    /// The octets of a message: 22, 16, 18 or 10.
    pub const fn message_octets(self) -> usize {
        match self {
            Kind::Dcall => 22,
            Kind::SdcallInbound => 16,
            Kind::SdcallOutbound => 18,
            Kind::Facch1 => 10,
        }
    }
}

/// The end of a call that stands here.
#[derive(Clone, Copy, Debug, PartialEq, Eq, Hash)]
#[repr(u8)]
pub enum End {
    /// The call is sent.
    Sending = 1,
    /// The call is received.
    Receiving = 2,
}

impl End {
    pub(crate) fn of(number: u8) -> Result<End, Answer> {
        match number {
            1 => Ok(End::Sending),
            2 => Ok(End::Receiving),
            _ => Err(Answer::Unlisted),
        }
    }
}
