//! Keys, vectors and rates that the tests share.
#![allow(dead_code)] // no test file uses all of it
use nxdn::{Book, Cipher, Name, Rate, Vector};

pub const CIPHERS: [Cipher; 3] = [Cipher::Scramble, Cipher::Des, Cipher::Aes];
pub const RATES: [Rate; 2] = [Rate::Half, Rate::Full];
pub const ID: u8 = 5;
pub const VECTOR: Vector = [0xAB, 0xCD, 0xEF, 0x12, 0x34, 0x56, 0x78, 0x90];

/// NXDN TS 1-D's keys, section 7.2.2.
pub fn key(cipher: Cipher) -> Vec<u8> {
    hex(match cipher {
        Cipher::Scramble => "0001",
        Cipher::Des => "ABCDEF0123456789",
        Cipher::Aes => "ABCDEF0123456789CDEF0123456789ABEF0123456789ABCD0123456789ABCDEF",
    })
}

pub fn load(book: &mut Book, cipher: Cipher, id: u8, key: &[u8]) {
    book.begin(cipher, id, Name::new("WARD FOUR").unwrap()).unwrap();
    book.add(cipher, id, key).unwrap();
    book.finish(cipher, id).unwrap();
}

/// A key of each cipher, all under one key ID.
pub fn book() -> Book {
    let mut book = Book::new();
    for cipher in CIPHERS {
        load(&mut book, cipher, ID, &key(cipher));
    }
    book
}

pub fn hex(text: &str) -> Vec<u8> {
    let octet = |i| u8::from_str_radix(&text[i..i + 2], 16).unwrap();
    (0..text.len()).step_by(2).map(octet).collect()
}

/// Numbers that look random and are the same in each run.
pub struct Dice(pub u64);

impl Dice {
    pub fn below(&mut self, n: u64) -> u64 {
        self.0 ^= self.0 << 13;
        self.0 ^= self.0 >> 7;
        self.0 ^= self.0 << 17;
        (self.0 >> 32) % n
    }

    pub fn octets(&mut self, n: usize) -> Vec<u8> {
        (0..n).map(|_| self.below(256) as u8).collect()
    }
}
