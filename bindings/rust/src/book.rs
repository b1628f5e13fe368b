use crate::answer::done;
use crate::kept::kept;
use crate::{ffi, Answer, Cipher, BOOK, ENTRIES, NAME};
use core::fmt;

kept! {
    /// The keys, up to 16: each has a cipher, a key ID from 0 to 63 and a name.
    ///
    /// A key is begun, added to until it is whole, and finished; only then can it be used.
    /// Dropping a book zeroes it. Moving one leaves its octets behind, so keep it in one place; and
    /// it is not `Clone`, so that keys lie in no more places than they must.
    ///
    /// ```
    /// use nxdn::{Answer, Book, Cipher, Name};
    ///
    /// let mut book = Book::new();
    /// book.begin(Cipher::Scramble, 7, Name::new("WARD FOUR").unwrap())?;
    /// book.add(Cipher::Scramble, 7, &[0x5A])?;
    /// assert_eq!(book.finish(Cipher::Scramble, 7), Err(Answer::NotReady));
    /// book.add(Cipher::Scramble, 7, &[0x3C])?;
    /// book.finish(Cipher::Scramble, 7)?;
    ///
    /// let entry = book.inventory(0)?.unwrap();
    /// assert!(entry.ready);
    /// assert_eq!(entry.name.as_str(), "WARD FOUR");
    /// # Ok::<(), Answer>(())
    /// ```
    Book, BOOK
}

impl Book {
    /// Begins a key, under a name.
    ///
    /// Refuses `OutOfRange`, `Bad`, `Already`, `Full`.
    pub fn begin(&mut self, cipher: Cipher, id: u8, name: Name) -> Result<(), Answer> {
        done(ffi::begin(&mut self.octets, cipher, id, &name.0))
    }

    /// Adds octets to a key that was begun, up to its length.
    ///
    /// Refuses `WrongLength` (more than 32), `OutOfRange`, `Bad`, `NoEntry`, `Already`, `TooMany`.
    pub fn add(&mut self, cipher: Cipher, id: u8, octets: &[u8]) -> Result<(), Answer> {
        done(ffi::add(&mut self.octets, cipher, id, octets))
    }

    /// Finishes a key: only now can it be used.
    ///
    /// Refuses `OutOfRange`, `Bad`, `NoEntry`, `Already`, `NotReady`, `NotAllowed`.
    pub fn finish(&mut self, cipher: Cipher, id: u8) -> Result<(), Answer> {
        done(ffi::finish(&mut self.octets, cipher, id))
    }

    /// Zeroes a key, finished or not. A call that stands has its own copy and goes on.
    ///
    /// Refuses `OutOfRange`, `Bad`, `NoEntry`.
    pub fn erase(&mut self, cipher: Cipher, id: u8) -> Result<(), Answer> {
        done(ffi::erase(&mut self.octets, cipher, id))
    }

    /// The name of a key, finished or not.
    ///
    /// Refuses `OutOfRange`, `Bad`, `NoEntry`.
    pub fn name(&self, cipher: Cipher, id: u8) -> Result<Name, Answer> {
        let mut name = [0; NAME];
        done(ffi::name(&self.octets, cipher, id, &mut name))?;
        Ok(Name(name))
    }

    /// What a screen shows of entry number 0 to 15, never an octet of its key; `None` where it
    /// is free.
    ///
    /// Refuses `OutOfRange`, `Bad`.
    pub fn inventory(&self, entry: usize) -> Result<Option<Entry>, Answer> {
        let mut shown = [0; ffi::SHOWN_KEY];
        done(ffi::inventory(&self.octets, entry, &mut shown))?;
        let [cipher, id, loaded, ready, name @ ..] = shown;
        if cipher == 0 {
            return Ok(None);
        }
        let (cipher, ready, name) = (Cipher::of(cipher)?, ready == 1, Name(name));
        Ok(Some(Entry { cipher, id, loaded, ready, name }))
    }
}

/// The keys that the book has, without their octets.
impl fmt::Debug for Book {
    fn fmt(&self, f: &mut fmt::Formatter<'_>) -> fmt::Result {
        if let Err(answer) = self.inventory(0) {
            return f.debug_tuple("Book").field(&answer).finish();
        }
        f.write_str("Book ")?;
        let entries = (0..ENTRIES).filter_map(|entry| self.inventory(entry).ok().flatten());
        f.debug_list().entries(entries).finish()
    }
}

/// What the book shows of a key.
#[derive(Clone, Copy, Debug, PartialEq, Eq)]
pub struct Entry {
    /// The key's cipher.
    pub cipher: Cipher,
    /// The key's ID.
    pub id: u8,
    /// How many octets of it are loaded.
    pub loaded: u8,
    /// Whether it is finished, and can be used.
    pub ready: bool,
    /// The name that it was begun under.
    pub name: Name,
}

/// The name of a key: up to 16 characters of printable ASCII. Names need not differ.
#[derive(Clone, Copy, Default, PartialEq, Eq, Hash)]
pub struct Name([u8; NAME]);

impl Name {
    /// `None` where the text is longer than 16 characters, or has one that is not printable ASCII.
    pub const fn new(text: &str) -> Option<Name> {
        let text = text.as_bytes();
        if text.len() > NAME {
            return None;
        }
        let mut name = [0; NAME];
        let mut i = 0;
        while i < text.len() {
            if !matches!(text[i], b' '..=b'~') {
                return None;
            }
            name[i] = text[i];
            i += 1;
        }
        Some(Name(name))
    }

    /// The name as text.
    pub fn as_str(&self) -> &str {
        let end = self.0.iter().position(|octet| *octet == 0).unwrap_or(NAME);
        core::str::from_utf8(&self.0[..end]).unwrap_or_default()
    }
}

impl fmt::Display for Name {
    fn fmt(&self, f: &mut fmt::Formatter<'_>) -> fmt::Result {
        f.pad(self.as_str())
    }
}

impl fmt::Debug for Name {
    fn fmt(&self, f: &mut fmt::Formatter<'_>) -> fmt::Result {
        fmt::Debug::fmt(self.as_str(), f)
    }
}
