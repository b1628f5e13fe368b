//! The octets of a book, a call and a packet: stored, restored, zeroed and never printed. And what
//! stands for them in Rust: names, numbers and answers.
mod given;
use given::{book, hex, key, CIPHERS, ID, VECTOR};
use nxdn::{Answer, Book, Call, Cipher, Entry, Kind, Name, Packet, Rate, Slot, Step, Strictness};
use nxdn::{Use, BOOK, CALL, ENTRIES, PACKET, STEP};
use std::mem::MaybeUninit;

#[test]
fn new_is_all_zeros() {
    assert_eq!(Book::new().octets(), &[0; BOOK]);
    assert_eq!(Call::new().octets(), &[0; CALL]);
    assert_eq!(Packet::new().octets(), &[0; PACKET]);
}

#[test]
fn stored_and_restored() {
    let book = Book::from_octets(book().octets());
    let mut call = Call::new();
    call.start(Cipher::Aes, ID, Rate::Full, VECTOR, &book).unwrap();
    let mut heard = Call::new();
    heard.open(Cipher::Aes, ID, Rate::Full, Strictness::Handset, VECTOR, &book).unwrap();
    let mut packet = Packet::new();
    packet.open(Use::ToSend, Kind::Facch1, Cipher::Aes, ID, VECTOR, &book).unwrap();
    let mut other = Packet::new();
    other.open(Use::ToReceive, Kind::Facch1, Cipher::Aes, ID, VECTOR, &book).unwrap();
    for _ in 0..20 {
        // The restored one takes the place of the one that was stored, which is dropped.
        call = Call::from_octets(call.octets());
        packet = Packet::from_octets(packet.octets());
        let (mut frame, mut message) = ([0x5A; 36], [0x5A; 10]);
        assert_eq!(call.voice(15, &mut frame), Ok(Slot::Turned));
        assert_eq!(heard.voice(15, &mut frame), Ok(Slot::Turned));
        packet.message(&mut message).unwrap();
        other.message(&mut message).unwrap();
        assert_eq!((frame, message), ([0x5A; 36], [0x5A; 10]));
    }
}

#[test]
fn ended_and_erased_is_all_zeros() {
    let mut book = book();
    let mut call = Call::new();
    call.start(Cipher::Des, ID, Rate::Half, VECTOR, &book).unwrap();
    call.end().unwrap();
    assert_eq!(call.octets(), &[0; CALL]);
    let mut packet = Packet::new();
    packet.open(Use::ToSend, Kind::Dcall, Cipher::Des, ID, VECTOR, &book).unwrap();
    packet.end().unwrap();
    assert_eq!(packet.octets(), &[0; PACKET]);
    for cipher in CIPHERS {
        book.erase(cipher, ID).unwrap();
    }
    assert_eq!(book.octets(), &[0; BOOK]);
}

#[test]
fn sent_to_another_task() {
    let (book, mut call) = (book(), Call::new());
    let task = std::thread::spawn(move || {
        call.start(Cipher::Des, ID, Rate::Half, VECTOR, &book).unwrap();
        call.end().is_ok()
    });
    assert!(task.join().unwrap());
}

/// Drops a value and hands out what is then where it was.
fn after_drop<T, const N: usize>(value: T) -> [u8; N] {
    assert_eq!(size_of::<T>(), N);
    let mut place = MaybeUninit::new(value);
    // SAFETY: the value is dropped once, and its place, of N octets, lasts.
    unsafe {
        place.as_mut_ptr().drop_in_place();
        place.as_ptr().cast::<[u8; N]>().read()
    }
}

#[test]
fn dropped_is_all_zeros() {
    assert_eq!(after_drop(book()), [0; BOOK]);
    assert_eq!(after_drop(Call::from_octets(&[0x5A; CALL])), [0; CALL]);
    assert_eq!(after_drop(Packet::from_octets(&[0x5A; PACKET])), [0; PACKET]);
}

#[test]
fn nothing_prints_a_key() {
    let mut book = Book::new();
    book.begin(Cipher::Des, ID, Name::new("WARD FOUR").unwrap()).unwrap();
    book.add(Cipher::Des, ID, &key(Cipher::Des)[..6]).unwrap();
    let entry = r#"Entry { cipher: Des, id: 5, loaded: 6, ready: false, name: "WARD FOUR" }"#;
    assert_eq!(format!("{book:?}"), format!("Book [{entry}]"));
    assert_eq!(format!("{:?}", Book::from_octets(&[0xFF; BOOK])), "Book(Bad)");

    book.add(Cipher::Des, ID, &key(Cipher::Des)[6..]).unwrap();
    book.finish(Cipher::Des, ID).unwrap();
    let (mut call, mut packet) = (Call::new(), Packet::new());
    assert_eq!(format!("{call:?}"), "Call(Ok(None))");
    call.start(Cipher::Des, ID, Rate::Full, VECTOR, &book).unwrap();
    packet.open(Use::ToSend, Kind::Dcall, Cipher::Des, ID, VECTOR, &book).unwrap();
    let shown = "Shown { end: Sending, cipher: Des, rate: Full, position: 0, turns: true }";
    assert_eq!(format!("{call:?}"), format!("Call(Ok(Some({shown})))"));
    assert_eq!(format!("{packet:?}"), "Packet { .. }");
}

#[test]
fn the_inventory_shows_every_entry() {
    let (mut book, name) = (book(), Name::new("SPARE").unwrap());
    book.begin(Cipher::Aes, 63, name).unwrap();
    book.add(Cipher::Aes, 63, &hex("010203")).unwrap();
    let shown: Vec<_> = (0..ENTRIES).map(|entry| book.inventory(entry).unwrap()).collect();
    for (entry, cipher) in shown.iter().zip(CIPHERS) {
        let (loaded, name) = (cipher.key_octets() as u8, Name::new("WARD FOUR").unwrap());
        assert_eq!(entry, &Some(Entry { cipher, id: ID, loaded, ready: true, name }));
    }
    let spare = Entry { cipher: Cipher::Aes, id: 63, loaded: 3, ready: false, name };
    assert_eq!(shown[3], Some(spare));
    assert_eq!(shown[4..], [None; 12]);
    assert_eq!(book.name(Cipher::Aes, 63), Ok(name));
}

#[test]
fn a_name_is_printable_ascii() {
    for text in ["", " ", "WARD FOUR", "SIXTEEN LETTERS!", "~ ~"] {
        let name = Name::new(text).unwrap();
        assert_eq!((name.as_str(), name.to_string()), (text, text.to_string()));
        let mut book = Book::new();
        book.begin(Cipher::Des, ID, name).unwrap();
        assert_eq!(book.name(Cipher::Des, ID), Ok(name));
    }
    for text in ["SEVENTEEN LETTERS", "\0", "A\0B", "\x1F", "\x7F", "WÄRD", "TAB\t"] {
        assert_eq!(Name::new(text), None);
    }
    assert_eq!(Name::new(""), Some(Name::default()));
}

#[test]
fn answers_have_the_headers_numbers() {
    let header = [Answer::WrongLength, Answer::Bad, Answer::NotNow, Answer::TooMany];
    assert_eq!(header.map(|answer| answer as u8), [2, 4, 9, 13]);
    assert_eq!([Answer::PastLimit as u8, Answer::BadName as u8], [16, 17]);
    let error: Box<dyn std::error::Error> = Box::new(Answer::BadMask);
    assert_eq!(error.to_string(), "a mask above 15");
}

#[test]
fn sizes_are_the_headers() {
    assert_eq!(CIPHERS.map(Cipher::key_octets), [2, 8, 32]);
    assert_eq!([Rate::Half, Rate::Full].map(Rate::frame_octets), [28, 36]);
    assert_eq!((size_of::<Step>(), STEP), (38, 38));
    let kinds = [Kind::Dcall, Kind::SdcallInbound, Kind::SdcallOutbound, Kind::Facch1];
    assert_eq!(kinds.map(Kind::message_octets), [22, 16, 18, 10]);
}
