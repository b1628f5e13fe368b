//! The protection layer of an NXDN radio or talk recorder: safe types over libnxdn.a, the proved
//! library behind nxdn.h.
//!
//! [`Book`], [`Call`] and [`Packet`] own the octets that the library works on. It keeps nothing,
//! allocates nothing and has nothing to initialise; nor has this crate, which needs no `std`.
//! Operations give a `Result`, and one that is an `Err`, with an [`Answer`], changed nothing.
//!
//! A receiver, from the key to the end of a call:
//!
//! ```
//! use nxdn::{Book, Call, Cipher, Name, Rate, Slot, Strictness};
//!
//! let mut book = Book::new();
//! let key = [0xAB, 0xCD, 0xEF, 0x01, 0x23, 0x45, 0x67, 0x89];
//! book.begin(Cipher::Des, 5, Name::new("WARD FOUR").unwrap())?;
//! book.add(Cipher::Des, 5, &key)?;
//! book.finish(Cipher::Des, 5)?;
//!
//! // The opening on the air gives cipher, key ID, rate and the first session's vector.
//! let vector = [0xAB, 0xCD, 0xEF, 0x12, 0x34, 0x56, 0x78, 0x90];
//! let mut call = Call::new();
//! call.open(Cipher::Des, 5, Rate::Half, Strictness::Recorder, vector, &book)?;
//!
//! # let mut sender = Call::new();
//! # sender.start(Cipher::Des, 5, Rate::Half, vector, &book)?;
//! # let spoken = *b"CAFFEINE 20 MG PER KG, NOW..";
//! # let (mut frame, mask) = (spoken, 15);
//! # assert_eq!(sender.voice(mask, &mut frame)?, Slot::Turned);
//! # assert_ne!(frame, spoken);
//! // Every slot is told in turn. One arrived, as `frame` with `mask`, and the next is lost.
//! match call.voice(mask, &mut frame)? {
//!     Slot::Turned => assert_eq!(frame, spoken),
//!     Slot::Held => panic!("the opening gave this session's vector"),
//! }
//! call.lost()?;
//!
//! # let announced = sender.next_vector()?;
//! // The next session's vector is heard, as `announced`: the call keeps it until that starts.
//! call.heard(announced)?;
//!
//! let counts = call.end()?;
//! assert_eq!((counts.opened, counts.held, counts.lost), (4, 0, 4));
//! # Ok::<(), nxdn::Answer>(())
//! ```
//!
//! # What stays the caller's duty
//!
//! The types see to lengths, overlaps and numbers out of range; what they leave, such as a key ID,
//! a mask or the length of a frame, is answered. What a receiver hands out as opened is what was
//! spoken if the caller
//!
//! - gives it the key and the rate that the sender has: a wrong key opens every slot as noise;
//! - tells of every slot in turn, arrived or lost, each with the mask that the sender had;
//! - tells each vector that is announced once: by [`Call::heard`] after the slot in which it was
//!   heard, or by [`Call::announce`] as its session starts;
//! - joins only at the end of a first superframe;
//! - goes on with the call that the last operation left, and with no older copy of it. The types
//!   can't be cloned, but stored octets can.
//!
//! What changes a book, a call or a packet borrows it alone; several tasks may open calls from one
//! book, or look at one call.
//!
//! # Keys in memory
//!
//! A book, and each call and packet that stands, has keys in it. They are zeroed as they are
//! erased, ended or dropped, and `Debug` prints none. A move copies octets and leaves the old ones
//! behind, and so may the library on its stack.
#![no_std]
#![deny(missing_docs, unsafe_code)]

mod answer;
mod book;
mod call;
#[allow(unsafe_code)]
mod ffi;
mod kept;
mod numbers;
mod packet;
mod report;
mod step;

pub use answer::Answer;
pub use book::{Book, Entry, Name};
pub use call::{Call, Shown, Slot};
pub use numbers::{Cipher, End, Kind, Rate, Strictness, Use};
pub use packet::Packet;
pub use report::{report, Counts, Report};
pub use step::{answered, Step};

/// The octets of a book.
pub const BOOK: usize = 832;
/// The octets of a call.
pub const CALL: usize = 71;
/// The octets of a step.
pub const STEP: usize = 38;
/// The octets of a packet.
pub const PACKET: usize = 44;
/// The octets of a key's name.
pub const NAME: usize = 16;
/// The octets of a vector.
pub const VECTOR: usize = 8;
/// The entries of a book.
pub const ENTRIES: usize = 16;

/// Eight octets from which a session's keystream begins. It goes on the air, and is no secret.
pub type Vector = [u8; VECTOR];
