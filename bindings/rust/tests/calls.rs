//! Calls and packets between two ends.
mod given;
use given::{book, hex, load, Dice, CIPHERS, ID, RATES, VECTOR};
use nxdn::{answered, report, Answer, Call, Cipher, Counts, End, Kind, Packet, Rate, Slot};
use nxdn::{Shown, Step, Strictness, Use};

/// When a receiver is told of a vector that reached it: after the slot in which it was heard, or as
/// its session starts.
#[derive(Clone, Copy, PartialEq)]
enum Telling {
    AsHeard,
    AsItsSessionStarts,
}

/// A call of forty sessions over bad radio: each third slot and each third announcement is lost.
/// What the receiver should do is said again here, from the sessions whose vectors reached it.
fn talk(cipher: Cipher, rate: Rate, strictness: Strictness, telling: Telling) -> Counts {
    let book = book();
    let mut dice = Dice(1 + cipher as u64 + 8 * rate as u64);
    let (mut sender, mut receiver) = (Call::new(), Call::new());
    sender.start(cipher, ID, rate, VECTOR, &book).unwrap();
    receiver.open(cipher, ID, rate, strictness, VECTOR, &book).unwrap();

    let (scrambles, rides) = (cipher == Cipher::Scramble, strictness == Strictness::Handset);
    let mut counts = Counts::default();
    let mut known = true;
    for _ in 0..40 {
        let slots = if scrambles { 4 } else { 8 };
        let reached = dice.below(3) > 0;
        let at = dice.below(slots);
        let next = sender.next_vector();
        assert_eq!(next.is_err(), scrambles);
        for position in 0..slots {
            let (spoken, mask) = (dice.octets(rate.frame_octets()), dice.below(16) as u8);
            let mut frame = spoken.clone();
            assert_eq!(sender.voice(mask, &mut frame), Ok(Slot::Turned));
            if dice.below(3) == 0 {
                receiver.lost().unwrap();
                counts.lost += 4;
            } else {
                let on_air = frame.clone();
                let slot = receiver.voice(mask, &mut frame).unwrap();
                let expected = if known { (Slot::Turned, spoken) } else { (Slot::Held, on_air) };
                assert_eq!((slot, frame), expected);
                *(if known { &mut counts.opened } else { &mut counts.held }) += mask.count_ones();
                counts.replaced += 4 - mask.count_ones();
            }
            if reached && !scrambles && telling == Telling::AsHeard && position == at {
                receiver.heard(next.unwrap()).unwrap();
            }
        }
        if reached && !scrambles && telling == Telling::AsItsSessionStarts {
            receiver.announce(next.unwrap()).unwrap();
        }
        known = scrambles || reached || rides && known;
    }
    assert_eq!(sender.end(), Ok(Counts::default()));
    assert_eq!(receiver.end(), Ok(counts));
    assert_eq!(receiver.show(), Ok(None));
    counts
}

#[test]
fn a_handset_rides_over_lost_announcements() {
    for (cipher, rate) in CIPHERS.into_iter().flat_map(|c| RATES.map(|r| (c, r))) {
        for telling in [Telling::AsHeard, Telling::AsItsSessionStarts] {
            let counts = talk(cipher, rate, Strictness::Handset, telling);
            assert!(counts.opened > 0 && counts.held == 0 && counts.lost > 0, "{counts:?}");
        }
    }
}

#[test]
fn a_recorder_holds_what_was_not_announced() {
    for (cipher, rate) in CIPHERS.into_iter().flat_map(|c| RATES.map(|r| (c, r))) {
        for telling in [Telling::AsHeard, Telling::AsItsSessionStarts] {
            let counts = talk(cipher, rate, Strictness::Recorder, telling);
            assert!(counts.opened > 0 && counts.lost > 0, "{counts:?}");
            assert_eq!(counts.held == 0, cipher == Cipher::Scramble);
        }
    }
}

/// Three sessions with losses, of which the third is not announced; the last step is refused.
fn recorded(cipher: Cipher, rate: Rate, strictness: Strictness, telling: Telling) {
    let (book, mut dice) = (book(), Dice(5));
    let (mut sender, mut one, mut all) = (Call::new(), Call::new(), Call::new());
    sender.start(cipher, ID, rate, VECTOR, &book).unwrap();
    one.open(cipher, ID, rate, strictness, VECTOR, &book).unwrap();
    all.open(cipher, ID, rate, strictness, VECTOR, &book).unwrap();
    let (mut steps, mut answers, mut frames) = (vec![], vec![], vec![]);
    let done = |answer: Result<(), Answer>| answer.map(|()| Slot::Turned);
    for slot in 0..24 {
        let mut frame = dice.octets(rate.frame_octets());
        let next = sender.next_vector();
        assert_eq!(sender.voice(15, &mut frame), Ok(Slot::Turned));
        if slot % 5 == 3 {
            steps.push(Step::lost());
            answers.push(done(one.lost()));
        } else {
            steps.push(Step::voice(15, &frame).unwrap());
            answers.push(one.voice(15, &mut frame));
            frames.push((steps.len() - 1, frame));
        }
        if let (Ok(vector), 5, Telling::AsHeard) = (next, slot, telling) {
            steps.push(Step::heard(vector));
            answers.push(done(one.heard(vector)));
        }
        if let (Ok(vector), 7, Telling::AsItsSessionStarts) = (next, slot, telling) {
            steps.push(Step::announce(vector));
            answers.push(done(one.announce(vector)));
        }
    }
    steps.push(Step::voice(16, &vec![0; rate.frame_octets()]).unwrap());
    answers.push(Err(Answer::BadMask));

    let mut numbers = vec![255; steps.len()];
    all.batch(&mut steps, &mut numbers).unwrap();
    assert_eq!(numbers.into_iter().map(answered).collect::<Vec<_>>(), answers);
    for (step, frame) in frames {
        assert_eq!(steps[step].frame(rate), frame);
    }
    assert_eq!(all.octets(), one.octets());
    let holds = cipher != Cipher::Scramble && strictness == Strictness::Recorder;
    assert_eq!(answers.contains(&Ok(Slot::Held)), holds);
}

#[test]
fn a_batch_is_its_steps_in_turn() {
    for (cipher, rate) in CIPHERS.into_iter().flat_map(|c| RATES.map(|r| (c, r))) {
        for telling in [Telling::AsHeard, Telling::AsItsSessionStarts] {
            recorded(cipher, rate, Strictness::Handset, telling);
            recorded(cipher, rate, Strictness::Recorder, telling);
        }
    }
}

#[test]
fn a_late_entry_holds_until_a_vector_is_heard() {
    let book = book();
    let mut sender = Call::new();
    sender.start(Cipher::Aes, ID, Rate::Full, VECTOR, &book).unwrap();
    for _ in 0..4 {
        assert_eq!(sender.voice(15, &mut [0; 36]), Ok(Slot::Turned));
    }
    let mut receiver = Call::new();
    receiver.join(Cipher::Aes, ID, Rate::Full, Strictness::Handset, &book).unwrap();
    let (end, cipher, rate) = (End::Receiving, Cipher::Aes, Rate::Full);
    let shown = Shown { end, cipher, rate, position: 4, turns: false };
    assert_eq!(receiver.show(), Ok(Some(shown)));

    receiver.heard(VECTOR).unwrap();
    receiver.heard(sender.next_vector().unwrap()).unwrap(); // the last that is heard counts
    for _ in 0..4 {
        let mut frame = *b"THE REST OF THE FIRST SESSION IS HEL";
        assert_eq!(sender.voice(15, &mut frame), Ok(Slot::Turned));
        assert_eq!(receiver.voice(15, &mut frame), Ok(Slot::Held));
    }
    assert_eq!(receiver.show(), Ok(Some(Shown { position: 0, turns: true, ..shown })));
    let mut frame = *b"CAFFEINE 20 MG PER KG, AND ONCE MORE";
    assert_eq!(sender.voice(15, &mut frame), Ok(Slot::Turned));
    assert_eq!(receiver.voice(15, &mut frame), Ok(Slot::Turned));
    assert_eq!(&frame, b"CAFFEINE 20 MG PER KG, AND ONCE MORE");
    let counts = Counts { opened: 4, held: 16, ..Counts::default() };
    assert_eq!(receiver.end(), Ok(counts));
}

#[test]
fn erasing_its_key_does_not_break_a_call() {
    let mut book = book();
    let (mut sender, mut receiver) = (Call::new(), Call::new());
    sender.start(Cipher::Des, ID, Rate::Half, VECTOR, &book).unwrap();
    receiver.open(Cipher::Des, ID, Rate::Half, Strictness::Recorder, VECTOR, &book).unwrap();
    book.erase(Cipher::Des, ID).unwrap();
    let mut frame = *b"CAFFEINE 20 MG PER KG, NOW..";
    assert_eq!(sender.voice(15, &mut frame), Ok(Slot::Turned));
    assert_eq!(receiver.voice(15, &mut frame), Ok(Slot::Turned));
    assert_eq!(&frame, b"CAFFEINE 20 MG PER KG, NOW..");
    receiver.end().unwrap();
    let again = receiver.open(Cipher::Des, ID, Rate::Half, Strictness::Recorder, VECTOR, &book);
    assert_eq!(again, Err(Answer::NoEntry));
}

/// Rows of crates/vectors/data/voice-slots.tsv, an independent model's: cipher, rate, slots before
/// it, mask, frame and turned frame. They show that each argument reaches its place.
#[rustfmt::skip]
const SLOTS: [(Cipher, Rate, u32, u8, &str, &str); 6] = [
    (Cipher::Scramble, Rate::Half, 3, 0x0A,
     "9E006095AAC607C8B0E24C9AF4894DC4CE73FF23C4310C3982F5FE96",
     "9E006095AAC607CBC6E978A04C094DC4CE73FF23C47D559057010296"),
    (Cipher::Scramble, Rate::Full, 9, 0x0F,
     "10083CD4F389CA05129E1225A0866CAE2B7B6EE9D8705E96913FB3CE51533FFAEEE61BAD",
     "35A6E1323FDF63F2E6AE2A853345042558404473272E5D5299A7809EFAB0C7B2FF567E0C"),
    (Cipher::Des, Rate::Half, 8, 0x0F,
     "830C64E1CE3A922FB50633A5EBB5E0A9FE69D7B2F13B117FC68A6160",
     "6C410A726097924167B9D7BE1335B0FCEFC1408B7158DC8BF0D807E0"),
    (Cipher::Des, Rate::Full, 4, 0x0A,
     "BBC96629D6D5F6379D3121E4230EB25E9327DB21D17DEA8D170F477F9BD3DD0DEF39E1C8",
     "BBC96629D6D5F6379DEC5D6D7A49D52A764EDB21D17DEA8D170F4733F834B3D05FB99E48"),
    (Cipher::Aes, Rate::Half, 12, 0x07,
     "8E52E0C43F5BA42D69242340371198E441CED460EE3BB7676C4CF1B9",
     "25890BBC517C242B91574EFE1B1160692C9509716E3BB7676C4CF1B9"),
    (Cipher::Aes, Rate::Full, 17, 0x0F,
     "84CA3FE535B821A993E7E918AA53A5C75FDCBF277A9674EF444FE8EE30EF6382FC4D95DD",
     "C584230C9C0FA729C12DE8424A21C2426E25AA91B3366FE811B2A7E1662B9AE6DFBA0237"),
];

#[test]
fn slots_are_the_models() {
    let mut book = book();
    book.erase(Cipher::Scramble, ID).unwrap();
    load(&mut book, Cipher::Scramble, ID, &hex("5A3C"));
    for (cipher, rate, before, mask, frame, turned) in SLOTS {
        let (mut sender, mut receiver) = (Call::new(), Call::new());
        sender.start(cipher, ID, rate, VECTOR, &book).unwrap();
        receiver.open(cipher, ID, rate, Strictness::Handset, VECTOR, &book).unwrap();
        for _ in 0..before {
            assert_eq!(sender.voice(0, &mut vec![0; rate.frame_octets()]), Ok(Slot::Turned));
            receiver.lost().unwrap();
        }
        let mut octets = hex(frame);
        assert_eq!(sender.voice(mask, &mut octets), Ok(Slot::Turned));
        assert_eq!(octets, hex(turned));
        assert_eq!(receiver.voice(mask, &mut octets), Ok(Slot::Turned));
        assert_eq!(octets, hex(frame));
    }
}

/// NXDN TS 1-D's enciphered user data, section 7.2.2, behind two octets that are not turned.
const MESSAGES: [(Cipher, &str); 3] = [
    (Cipher::Scramble, "F00FC143434245524730485A4D2C580E30D150545540"),
    (Cipher::Des, "F00FFE04A2AB29D0CFAE27FAABCAB12DF741898BE218"),
    (Cipher::Aes, "F00F7C06FE6BF9BDA40E9ADBF432E471E71F1C6BE8BF"),
];

#[test]
fn messages_are_the_standards() {
    let book = book();
    for (cipher, published) in MESSAGES {
        let mut packet = Packet::new();
        packet.open(Use::ToSend, Kind::Dcall, cipher, ID, VECTOR, &book).unwrap();
        let mut message = *b"\xF0\x0FABCDEFGHIJKLMNOPQRST";
        packet.message(&mut message).unwrap();
        assert_eq!(message[..], hex(published));
    }
}

#[test]
fn a_packet_with_losses() {
    let (book, mut dice) = (book(), Dice(7));
    for kind in [Kind::Dcall, Kind::SdcallInbound, Kind::SdcallOutbound, Kind::Facch1] {
        for cipher in CIPHERS {
            let (mut sender, mut receiver) = (Packet::new(), Packet::new());
            sender.open(Use::ToSend, kind, cipher, ID, VECTOR, &book).unwrap();
            receiver.open(Use::ToReceive, kind, cipher, ID, VECTOR, &book).unwrap();
            for _ in 0..20 {
                let said = dice.octets(kind.message_octets());
                let mut message = said.clone();
                sender.message(&mut message).unwrap();
                assert_ne!(message, said);
                if dice.below(3) == 0 {
                    receiver.lost().unwrap();
                } else {
                    receiver.message(&mut message).unwrap();
                    assert_eq!(message, said);
                }
            }
            sender.end().unwrap();
            receiver.end().unwrap();
        }
    }
}

#[test]
fn a_report_adds_up() {
    let call = Counts { opened: 1, held: 2, replaced: 3, lost: 4 };
    let night = report(&[call, Counts { opened: 4_000_000, ..call }]).unwrap();
    assert_eq!((night.opened, night.held, night.replaced, night.lost), (4_000_001, 4, 6, 8));
    assert_eq!((night.part, night.whole), (4_000_001, 4_000_005));
    assert_eq!(report(&[]).unwrap().whole, 0);
    let most = vec![Counts { lost: 4_000_000, ..call }; 10_000];
    assert_eq!(report(&most).unwrap().lost, 40_000_000_000);
}
