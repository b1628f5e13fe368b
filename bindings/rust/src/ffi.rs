//! The functions of nxdn.h, in its order, and over each a safe function. All `unsafe` code of the
//! crate is here.
//!
//! Why each call is sound: every pointer goes with the length of the one array or slice that it
//! was taken from. That is borrowed while the call lasts, mutably where the function writes, so
//! none overlap and nobody else has them meanwhile; and the library keeps no pointer. It asks for
//! nothing else: every function answers, whatever octets and numbers it is given.
use crate::{Cipher, Counts, Kind, Rate, Step, Strictness, Use, Vector};
use crate::{BOOK, CALL, NAME, PACKET, STEP, VECTOR};
use core::sync::atomic::{compiler_fence, Ordering};

/// The octets that `inventory` hands out.
pub const SHOWN_KEY: usize = 20;
/// The octets that `show` hands out.
pub const SHOWN_CALL: usize = 5;
/// The numbers that `end` hands out of a call, and that `report` takes of each.
pub const COUNTS: usize = 4;
/// The numbers that `report` hands out.
pub const SUMS: usize = 6;

// Counts are lent to the report as they lie: four numbers to a call, and nothing between them.
const _: () = assert!(size_of::<Counts>() == COUNTS * size_of::<u32>());
const _: () = assert!(align_of::<Counts>() == align_of::<u32>());
// And so are steps, as octets.
const _: () = assert!(size_of::<Step>() == STEP);

#[rustfmt::skip] // wrapped as in nxdn.h, to be read beside it
unsafe extern "C" {
    fn nxdn_begin(book: *mut u8, book_len: usize, cipher: u8, id: u8, name: *const u8,
                  name_len: usize) -> u8;
    fn nxdn_add(book: *mut u8, book_len: usize, cipher: u8, id: u8, octets: *const u8,
                octets_len: usize) -> u8;
    fn nxdn_finish(book: *mut u8, book_len: usize, cipher: u8, id: u8) -> u8;
    fn nxdn_erase(book: *mut u8, book_len: usize, cipher: u8, id: u8) -> u8;
    fn nxdn_name(book: *const u8, book_len: usize, cipher: u8, id: u8, name: *mut u8,
                 name_len: usize) -> u8;
    fn nxdn_inventory(book: *const u8, book_len: usize, entry: usize, shown: *mut u8,
                      shown_len: usize) -> u8;

    fn nxdn_open(call: *mut u8, call_len: usize, cipher: u8, id: u8, rate: u8, strictness: u8,
                 vector: *const u8, vector_len: usize, book: *const u8, book_len: usize) -> u8;
    fn nxdn_start(call: *mut u8, call_len: usize, cipher: u8, id: u8, rate: u8,
                  vector: *const u8, vector_len: usize, book: *const u8, book_len: usize) -> u8;
    fn nxdn_join(call: *mut u8, call_len: usize, cipher: u8, id: u8, rate: u8, strictness: u8,
                 book: *const u8, book_len: usize) -> u8;
    fn nxdn_voice(call: *mut u8, call_len: usize, mask: u8, frame: *mut u8,
                  frame_len: usize) -> u8;
    fn nxdn_lost(call: *mut u8, call_len: usize) -> u8;
    fn nxdn_heard(call: *mut u8, call_len: usize, vector: *const u8, vector_len: usize) -> u8;
    fn nxdn_announce(call: *mut u8, call_len: usize, vector: *const u8, vector_len: usize) -> u8;
    fn nxdn_next_vector(call: *const u8, call_len: usize, vector: *mut u8,
                        vector_len: usize) -> u8;
    fn nxdn_batch(call: *mut u8, call_len: usize, steps: *mut u8, steps_len: usize,
                  answers: *mut u8, answers_len: usize) -> u8;
    fn nxdn_end(call: *mut u8, call_len: usize, counts: *mut u32, counts_len: usize) -> u8;
    fn nxdn_show(call: *const u8, call_len: usize, shown: *mut u8, shown_len: usize) -> u8;

    fn nxdn_packet_open(packet: *mut u8, packet_len: usize, packet_use: u8, kind: u8, cipher: u8,
                        id: u8, vector: *const u8, vector_len: usize, book: *const u8,
                        book_len: usize) -> u8;
    fn nxdn_message(packet: *mut u8, packet_len: usize, message: *mut u8,
                    message_len: usize) -> u8;
    fn nxdn_packet_lost(packet: *mut u8, packet_len: usize) -> u8;
    fn nxdn_packet_end(packet: *mut u8, packet_len: usize) -> u8;

    fn nxdn_report(counts: *const u32, counts_len: usize, sums: *mut u64, sums_len: usize) -> u8;
}

// ---- the book

pub fn begin(book: &mut [u8; BOOK], cipher: Cipher, id: u8, name: &[u8; NAME]) -> u8 {
    unsafe { nxdn_begin(book.as_mut_ptr(), BOOK, cipher as u8, id, name.as_ptr(), NAME) }
}

pub fn add(book: &mut [u8; BOOK], cipher: Cipher, id: u8, octets: &[u8]) -> u8 {
    let (octets, octets_len) = (octets.as_ptr(), octets.len());
    unsafe { nxdn_add(book.as_mut_ptr(), BOOK, cipher as u8, id, octets, octets_len) }
}

pub fn finish(book: &mut [u8; BOOK], cipher: Cipher, id: u8) -> u8 {
    unsafe { nxdn_finish(book.as_mut_ptr(), BOOK, cipher as u8, id) }
}

pub fn erase(book: &mut [u8; BOOK], cipher: Cipher, id: u8) -> u8 {
    unsafe { nxdn_erase(book.as_mut_ptr(), BOOK, cipher as u8, id) }
}

pub fn name(book: &[u8; BOOK], cipher: Cipher, id: u8, name: &mut [u8; NAME]) -> u8 {
    unsafe { nxdn_name(book.as_ptr(), BOOK, cipher as u8, id, name.as_mut_ptr(), NAME) }
}

pub fn inventory(book: &[u8; BOOK], entry: usize, shown: &mut [u8; SHOWN_KEY]) -> u8 {
    unsafe { nxdn_inventory(book.as_ptr(), BOOK, entry, shown.as_mut_ptr(), SHOWN_KEY) }
}

// ---- a call

pub fn open(
    call: &mut [u8; CALL],
    cipher: Cipher,
    id: u8,
    rate: Rate,
    strictness: Strictness,
    vector: &Vector,
    book: &[u8; BOOK],
) -> u8 {
    let (cipher, rate, strictness) = (cipher as u8, rate as u8, strictness as u8);
    let (call, vector, book) = (call.as_mut_ptr(), vector.as_ptr(), book.as_ptr());
    unsafe { nxdn_open(call, CALL, cipher, id, rate, strictness, vector, VECTOR, book, BOOK) }
}

pub fn start(
    call: &mut [u8; CALL],
    cipher: Cipher,
    id: u8,
    rate: Rate,
    vector: &Vector,
    book: &[u8; BOOK],
) -> u8 {
    let (cipher, rate) = (cipher as u8, rate as u8);
    let (call, vector, book) = (call.as_mut_ptr(), vector.as_ptr(), book.as_ptr());
    unsafe { nxdn_start(call, CALL, cipher, id, rate, vector, VECTOR, book, BOOK) }
}

pub fn join(
    call: &mut [u8; CALL],
    cipher: Cipher,
    id: u8,
    rate: Rate,
    strictness: Strictness,
    book: &[u8; BOOK],
) -> u8 {
    let (cipher, rate, strictness) = (cipher as u8, rate as u8, strictness as u8);
    let (call, book) = (call.as_mut_ptr(), book.as_ptr());
    unsafe { nxdn_join(call, CALL, cipher, id, rate, strictness, book, BOOK) }
}

pub fn voice(call: &mut [u8; CALL], mask: u8, frame: &mut [u8]) -> u8 {
    unsafe { nxdn_voice(call.as_mut_ptr(), CALL, mask, frame.as_mut_ptr(), frame.len()) }
}

pub fn lost(call: &mut [u8; CALL]) -> u8 {
    unsafe { nxdn_lost(call.as_mut_ptr(), CALL) }
}

pub fn heard(call: &mut [u8; CALL], vector: &Vector) -> u8 {
    unsafe { nxdn_heard(call.as_mut_ptr(), CALL, vector.as_ptr(), VECTOR) }
}

pub fn announce(call: &mut [u8; CALL], vector: &Vector) -> u8 {
    unsafe { nxdn_announce(call.as_mut_ptr(), CALL, vector.as_ptr(), VECTOR) }
}

pub fn next_vector(call: &[u8; CALL], vector: &mut Vector) -> u8 {
    unsafe { nxdn_next_vector(call.as_ptr(), CALL, vector.as_mut_ptr(), VECTOR) }
}

pub fn batch(call: &mut [u8; CALL], steps: &mut [Step], answers: &mut [u8]) -> u8 {
    // No overflow: the octets of a slice are no more than isize::MAX.
    let (steps, steps_len) = (steps.as_mut_ptr().cast::<u8>(), STEP * steps.len());
    let (answers, answers_len) = (answers.as_mut_ptr(), answers.len());
    unsafe { nxdn_batch(call.as_mut_ptr(), CALL, steps, steps_len, answers, answers_len) }
}

pub fn end(call: &mut [u8; CALL], counts: &mut [u32; COUNTS]) -> u8 {
    unsafe { nxdn_end(call.as_mut_ptr(), CALL, counts.as_mut_ptr(), COUNTS) }
}

pub fn show(call: &[u8; CALL], shown: &mut [u8; SHOWN_CALL]) -> u8 {
    unsafe { nxdn_show(call.as_ptr(), CALL, shown.as_mut_ptr(), SHOWN_CALL) }
}

// ---- a packet

pub fn packet_open(
    packet: &mut [u8; PACKET],
    packet_use: Use,
    kind: Kind,
    cipher: Cipher,
    id: u8,
    vector: &Vector,
    book: &[u8; BOOK],
) -> u8 {
    let (end, kind, cipher) = (packet_use as u8, kind as u8, cipher as u8);
    let (packet, vector, book) = (packet.as_mut_ptr(), vector.as_ptr(), book.as_ptr());
    unsafe { nxdn_packet_open(packet, PACKET, end, kind, cipher, id, vector, VECTOR, book, BOOK) }
}

pub fn message(packet: &mut [u8; PACKET], message: &mut [u8]) -> u8 {
    unsafe { nxdn_message(packet.as_mut_ptr(), PACKET, message.as_mut_ptr(), message.len()) }
}

pub fn packet_lost(packet: &mut [u8; PACKET]) -> u8 {
    unsafe { nxdn_packet_lost(packet.as_mut_ptr(), PACKET) }
}

pub fn packet_end(packet: &mut [u8; PACKET]) -> u8 {
    unsafe { nxdn_packet_end(packet.as_mut_ptr(), PACKET) }
}

// ---- a report

pub fn report(calls: &[Counts], sums: &mut [u64; SUMS]) -> u8 {
    // No overflow: the octets of a slice, sixteen to a call, are no more than isize::MAX.
    let (counts, counts_len) = (calls.as_ptr().cast::<u32>(), COUNTS * calls.len());
    unsafe { nxdn_report(counts, counts_len, sums.as_mut_ptr(), SUMS) }
}

// ---- zeros at the end

/// Zeroes octets that nobody reads again. A compiler may leave plain writes to these out.
pub fn wipe(octets: &mut [u8]) {
    for octet in octets {
        // SAFETY: it is borrowed mutably, so it may be written.
        unsafe { core::ptr::write_volatile(octet, 0) }
    }
    compiler_fence(Ordering::SeqCst);
}
