//! Every refusal that the types still allow, by operation, and in the order of nxdn.h.
mod given;
use given::{book, key, CIPHERS, ID, VECTOR};
use nxdn::{
    report, Answer, Book, Call, Cipher, Counts, Kind, Name, Packet, Rate, Slot, Step, Strictness,
};
use nxdn::{Use, BOOK, CALL, PACKET};

const NO_VECTOR: [u8; 8] = [0; 8];

/// Octets that are no good book, call or packet.
fn bad_book() -> Book {
    Book::from_octets(&[0xFF; BOOK])
}

fn bad_call() -> Call {
    Call::from_octets(&[0xFF; CALL])
}

fn bad_packet() -> Packet {
    Packet::from_octets(&[0xFF; PACKET])
}

fn receiver(cipher: Cipher) -> Call {
    let mut call = Call::new();
    call.open(cipher, ID, Rate::Half, Strictness::Recorder, VECTOR, &book()).unwrap();
    call
}

fn sender(cipher: Cipher) -> Call {
    let mut call = Call::new();
    call.start(cipher, ID, Rate::Half, VECTOR, &book()).unwrap();
    call
}

fn packet() -> Packet {
    let mut packet = Packet::new();
    packet.open(Use::ToSend, Kind::Facch1, Cipher::Des, ID, VECTOR, &book()).unwrap();
    packet
}

/// Does what must be refused, and sees to it that the octets stay.
macro_rules! refused {
    ($on:ident . $operation:ident ( $($given:expr),* ) , $answer:ident) => {
        let before = *$on.octets();
        assert_eq!($on.$operation($($given),*), Err(Answer::$answer));
        assert_eq!($on.octets(), &before);
    };
}

#[test]
fn of_the_book() {
    let (mut book, name) = (book(), Name::default());
    refused!(book.begin(Cipher::Des, 64, name), OutOfRange);
    refused!(book.begin(Cipher::Des, ID, name), Already);
    refused!(book.add(Cipher::Aes, ID, &[0; 33]), WrongLength);
    refused!(book.add(Cipher::Aes, 64, &[0; 32]), OutOfRange);
    refused!(book.add(Cipher::Aes, 6, &[0; 32]), NoEntry);
    refused!(book.add(Cipher::Aes, ID, &[]), Already);
    refused!(book.finish(Cipher::Aes, 64), OutOfRange);
    refused!(book.finish(Cipher::Aes, 6), NoEntry);
    refused!(book.finish(Cipher::Aes, ID), Already);
    refused!(book.erase(Cipher::Aes, 64), OutOfRange);
    refused!(book.erase(Cipher::Aes, 6), NoEntry);
    refused!(book.name(Cipher::Aes, 64), OutOfRange);
    refused!(book.name(Cipher::Aes, 6), NoEntry);
    refused!(book.inventory(16), OutOfRange);
    refused!(book.inventory(usize::MAX), OutOfRange);

    book.begin(Cipher::Des, 6, name).unwrap();
    refused!(book.add(Cipher::Des, 6, &[0; 9]), TooMany);
    book.add(Cipher::Des, 6, &[0; 7]).unwrap();
    refused!(book.finish(Cipher::Des, 6), NotReady);
    refused!(book.add(Cipher::Des, 6, &[0; 2]), TooMany);
    book.add(Cipher::Des, 6, &[0]).unwrap();
    refused!(book.finish(Cipher::Des, 6), NotAllowed); // even parity

    for id in 10..22 {
        book.begin(Cipher::Aes, id, name).unwrap();
    }
    refused!(book.begin(Cipher::Aes, 22, name), Full);
}

#[test]
fn of_a_bad_book() {
    let mut book = bad_book();
    for cipher in CIPHERS {
        refused!(book.begin(cipher, ID, Name::default()), Bad);
        refused!(book.add(cipher, ID, &[0]), Bad);
        refused!(book.finish(cipher, ID), Bad);
        refused!(book.erase(cipher, ID), Bad);
        refused!(book.name(cipher, ID), Bad);
        refused!(book.inventory(0), Bad);
        let (mut call, mut packet) = (Call::new(), Packet::new());
        refused!(call.open(cipher, ID, Rate::Half, Strictness::Handset, VECTOR, &book), Bad);
        refused!(call.start(cipher, ID, Rate::Half, VECTOR, &book), Bad);
        refused!(call.join(cipher, ID, Rate::Half, Strictness::Handset, &book), Bad);
        refused!(packet.open(Use::ToSend, Kind::Dcall, cipher, ID, VECTOR, &book), Bad);
    }
}

#[test]
fn of_an_opening() {
    let mut book = book();
    book.begin(Cipher::Des, 6, Name::default()).unwrap();
    book.add(Cipher::Des, 6, &key(Cipher::Des)).unwrap();
    let (rate, strictness) = (Rate::Full, Strictness::Recorder);
    let mut call = Call::new();
    for (id, answer) in [(64, Answer::OutOfRange), (7, Answer::NoEntry), (6, Answer::NotReady)] {
        let opened = call.open(Cipher::Des, id, rate, strictness, VECTOR, &book);
        let started = call.start(Cipher::Des, id, rate, VECTOR, &book);
        let joined = call.join(Cipher::Des, id, rate, strictness, &book);
        assert_eq!([opened, started, joined], [Err(answer); 3]);
        assert_eq!(call.octets(), &[0; CALL]);
    }
    refused!(call.start(Cipher::Des, ID, rate, NO_VECTOR, &book), ZeroVector);
    refused!(call.start(Cipher::Aes, ID, rate, NO_VECTOR, &book), ZeroVector);
    call.start(Cipher::Scramble, ID, rate, NO_VECTOR, &book).unwrap(); // has no vector
    refused!(call.open(Cipher::Des, ID, rate, strictness, VECTOR, &book), NotNow);
    refused!(call.start(Cipher::Des, ID, rate, VECTOR, &book), NotNow);
    refused!(call.join(Cipher::Des, ID, rate, strictness, &book), NotNow);
    call.end().unwrap();
    call.open(Cipher::Des, ID, rate, strictness, NO_VECTOR, &book).unwrap(); // another maker's
}

#[test]
fn of_no_call_and_of_a_bad_one() {
    let (mut none, mut bad, book) = (Call::new(), bad_call(), book());
    let (rate, strictness) = (Rate::Half, Strictness::Recorder);
    refused!(none.voice(15, &mut [0; 28]), NotNow);
    refused!(none.lost(), NotNow);
    refused!(none.heard(VECTOR), NotNow);
    refused!(none.announce(VECTOR), NotNow);
    refused!(none.next_vector(), NotNow);
    refused!(none.end(), NotNow);
    assert_eq!(none.show(), Ok(None));

    refused!(bad.open(Cipher::Des, ID, rate, strictness, VECTOR, &book), Bad);
    refused!(bad.start(Cipher::Des, ID, rate, VECTOR, &book), Bad);
    refused!(bad.join(Cipher::Des, ID, rate, strictness, &book), Bad);
    refused!(bad.voice(15, &mut [0; 28]), Bad);
    refused!(bad.lost(), Bad);
    refused!(bad.heard(VECTOR), Bad);
    refused!(bad.announce(VECTOR), Bad);
    refused!(bad.next_vector(), Bad);
    refused!(bad.end(), Bad);
    refused!(bad.show(), Bad);
}

#[test]
fn of_a_slot() {
    for mut call in [receiver(Cipher::Aes), sender(Cipher::Aes)] {
        let mut frame = [0x5A; 28];
        refused!(call.voice(16, &mut frame), BadMask);
        assert_eq!(frame, [0x5A; 28]);
        for octets in [0, 27, 29, 36] {
            let mut frame = vec![0x5A; octets];
            refused!(call.voice(15, &mut frame), WrongLength);
            assert_eq!(frame, vec![0x5A; octets]);
        }
        assert_eq!(call.voice(15, &mut frame), Ok(Slot::Turned));
    }
}

#[test]
fn of_a_batch() {
    for octets in [0, 27, 29, 35, 37] {
        assert_eq!(Step::voice(15, &vec![0; octets]), Err(Answer::WrongLength));
    }
    let before = [Step::voice(15, &[0x5A; 28]).unwrap(), Step::lost()];
    let (mut call, mut steps) = (receiver(Cipher::Aes), before);
    for count in [0, 1, 3] {
        let mut answers = vec![0x5A; count];
        refused!(call.batch(&mut steps, &mut answers), WrongLength);
        assert_eq!((steps, answers), (before, vec![0x5A; count]));
    }
    for (mut call, number) in [(Call::new(), 9), (bad_call(), 4)] {
        let (octets, mut answers) = (*call.octets(), [0x5A; 2]);
        call.batch(&mut steps, &mut answers).unwrap();
        assert_eq!((steps, answers, *call.octets()), (before, [number; 2], octets));
    }
}

#[test]
fn of_an_end_that_it_is_not_for() {
    let (mut scrambled, mut sender, mut receiver) =
        (receiver(Cipher::Scramble), sender(Cipher::Des), receiver(Cipher::Des));
    refused!(sender.lost(), NotNow);
    refused!(sender.heard(VECTOR), NotNow);
    refused!(sender.announce(VECTOR), NotNow);
    refused!(receiver.next_vector(), NotNow);
    refused!(receiver.announce(VECTOR), NotNow); // the opening told this session's
    refused!(scrambled.heard(VECTOR), NotNow);
    refused!(scrambled.announce(VECTOR), NotNow);
    refused!(scrambled.next_vector(), NotNow);
    for _ in 0..7 {
        receiver.lost().unwrap();
        refused!(receiver.announce(VECTOR), NotNow); // in the middle
    }
    receiver.lost().unwrap();
    receiver.announce(VECTOR).unwrap();
    refused!(receiver.announce(VECTOR), NotNow); // once
}

#[test]
fn past_the_limit_of_a_call() {
    let mut call = receiver(Cipher::Aes);
    for _ in 0..1_000_000 {
        call.lost().unwrap();
    }
    refused!(call.lost(), PastLimit);
    refused!(call.voice(15, &mut [0; 28]), PastLimit);
    assert_eq!(call.end(), Ok(Counts { lost: 4_000_000, ..Counts::default() }));
}

#[test]
fn of_a_packet() {
    let (mut none, mut bad, mut packet, mut book) = (Packet::new(), bad_packet(), packet(), book());
    refused!(none.message(&mut [0; 10]), NotNow);
    refused!(none.lost(), NotNow);
    refused!(none.end(), NotNow);
    refused!(bad.open(Use::ToSend, Kind::Dcall, Cipher::Des, ID, VECTOR, &book), Bad);
    refused!(bad.message(&mut [0; 10]), Bad);
    refused!(bad.lost(), Bad);
    refused!(bad.end(), Bad);

    refused!(packet.open(Use::ToSend, Kind::Dcall, Cipher::Des, ID, VECTOR, &book), NotNow);
    for octets in [0, 9, 11, 22] {
        let mut message = vec![0x5A; octets];
        refused!(packet.message(&mut message), WrongLength);
        assert_eq!(message, vec![0x5A; octets]);
    }
    for _ in 0..1000 {
        packet.lost().unwrap();
    }
    refused!(packet.lost(), NotNow);
    refused!(packet.message(&mut [0; 10]), NotNow);
    packet.end().unwrap();

    book.begin(Cipher::Aes, 6, Name::default()).unwrap();
    refused!(none.open(Use::ToSend, Kind::Dcall, Cipher::Aes, 64, VECTOR, &book), OutOfRange);
    refused!(none.open(Use::ToSend, Kind::Dcall, Cipher::Aes, 7, VECTOR, &book), NoEntry);
    refused!(none.open(Use::ToSend, Kind::Dcall, Cipher::Aes, 6, VECTOR, &book), NotReady);
    refused!(none.open(Use::ToSend, Kind::Dcall, Cipher::Aes, ID, NO_VECTOR, &book), ZeroVector);
    none.open(Use::ToReceive, Kind::Dcall, Cipher::Aes, ID, NO_VECTOR, &book).unwrap();
}

#[test]
fn of_a_report() {
    let call = Counts { opened: 1, held: 2, replaced: 3, lost: 4 };
    assert_eq!(report(&vec![call; 10_001]), Err(Answer::PastLimit));
    assert_eq!(report(&[call, Counts { held: 4_000_001, ..call }]), Err(Answer::PastLimit));
}
