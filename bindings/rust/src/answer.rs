use core::fmt;

/// Why an operation was refused. It left the book, call or packet, and what was lent, as it was.
///
/// These are the answers of nxdn.h from 2 on, with its numbers: `Answer::Bad as u8` is 4. Its
/// other two are what is `Ok`: 0, done, and 1, which is [`Slot::Held`](crate::Slot::Held). Where
/// several refusals hold, an operation answers the first that its documentation lists.
#[derive(Clone, Copy, Debug, PartialEq, Eq, Hash)]
#[repr(u8)]
pub enum Answer {
    /// A frame or message has the wrong length, more than 32 octets of a key are added, or a batch
    /// has not one answer to a step.
    WrongLength = 2,
    /// A key ID above 63, or an entry number above 15.
    OutOfRange = 3,
    /// The octets are no good book, call or packet.
    Bad = 4,
    /// The book has no key of this cipher and key ID.
    NoEntry = 5,
    /// The key is not finished, or is to be finished and lacks octets.
    NotReady = 6,
    /// The cipher does not allow this key.
    NotAllowed = 7,
    /// A sender's DES or AES vector is all zeros.
    ZeroVector = 8,
    /// It is not the time for this.
    NotNow = 9,
    /// A mask above 15.
    BadMask = 10,
    /// The key is there already, or finished already.
    Already = 11,
    /// All 16 entries of the book are in use.
    Full = 12,
    /// More octets than the key lacks.
    TooMany = 13,
    /// A slot past the 1,000,000th of a call that is received, or past a report's limits.
    PastLimit = 16,
    /// A name is not printable ASCII. A [`Name`](crate::Name) always is, so this never comes.
    BadName = 17,
    /// Not in nxdn.h. Its library never answers this; another one that is linked might.
    Unlisted = 255,
}

use Answer::*;

#[rustfmt::skip]
const LISTED: [Answer; 14] = [
    WrongLength, OutOfRange, Bad, NoEntry, NotReady, NotAllowed, ZeroVector, NotNow, BadMask,
    Already, Full, TooMany, PastLimit, BadName,
];

impl fmt::Display for Answer {
    fn fmt(&self, f: &mut fmt::Formatter<'_>) -> fmt::Result {
        f.write_str(match self {
            WrongLength => "wrong length",
            OutOfRange => "key ID or entry number out of range",
            Bad => "no good book, call or packet",
            NoEntry => "no key of this cipher and key ID",
            NotReady => "the key is not ready",
            NotAllowed => "the cipher does not allow this key",
            ZeroVector => "a sender's vector is all zeros",
            NotNow => "not the time for this",
            BadMask => "a mask above 15",
            Already => "the key is there, or finished, already",
            Full => "the book is full",
            TooMany => "more octets than the key lacks",
            PastLimit => "past the limit",
            BadName => "a name that is not printable ASCII",
            Unlisted => "an answer that nxdn.h does not list",
        })
    }
}

impl core::error::Error for Answer {}

/// A number that is not 0.
pub(crate) fn refused(number: u8) -> Answer {
    let listed = LISTED.into_iter().find(|answer| *answer as u8 == number);
    listed.unwrap_or(Unlisted)
}

pub(crate) fn done(number: u8) -> Result<(), Answer> {
    match number {
        0 => Ok(()),
        _ => Err(refused(number)),
    }
}
