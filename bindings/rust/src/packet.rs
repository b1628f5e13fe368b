use crate::answer::done;
use crate::kept::kept;
use crate::{ffi, Answer, Book, Cipher, Kind, Use, Vector, PACKET};
use core::fmt;

kept! {
    /// One data packet that is sent or received, with its own copy of its key; or no packet.
    ///
    /// It is neither `Copy` nor `Clone`, because an older copy of a packet must not be used: it
    /// would turn a message by the bits of another one. What is restored from stored octets takes
    /// the place of the packet that they were stored from. Dropping a packet zeroes it, as
    /// [`end`](Packet::end) does; moving one leaves its octets behind, so keep it in one place.
    ///
    /// ```
    /// # use nxdn::{Answer, Book, Cipher, Name};
    /// use nxdn::{Kind, Packet, Use};
    ///
    /// # let mut book = Book::new();
    /// # book.begin(Cipher::Scramble, 7, Name::default())?;
    /// # book.add(Cipher::Scramble, 7, &[0x5A, 0x3C])?;
    /// # book.finish(Cipher::Scramble, 7)?;
    /// let mut packet = Packet::new();
    /// packet.open(Use::ToSend, Kind::Facch1, Cipher::Scramble, 7, [0; 8], &book)?;
    /// let mut message = *b"..CAFFEINE";
    /// packet.message(&mut message)?;
    /// assert_ne!(&message, b"..CAFFEINE");
    /// packet.end()?;
    /// # Ok::<(), Answer>(())
    /// ```
    Packet, PACKET
}

impl Packet {
    /// Opens a packet. Scramble ignores the vector.
    ///
    /// Refuses `OutOfRange`, `Bad` (the packet), `NotNow` (a packet stands), `Bad` (the book),
    /// `NoEntry`, `NotReady`, and where it is to send `ZeroVector`.
    pub fn open(
        &mut self,
        packet_use: Use,
        kind: Kind,
        cipher: Cipher,
        id: u8,
        vector: Vector,
        book: &Book,
    ) -> Result<(), Answer> {
        let (packet, book) = (&mut self.octets, book.octets());
        done(ffi::packet_open(packet, packet_use, kind, cipher, id, &vector, book))
    }

    /// A message that is sent, or that arrived, as long as its kind says: turned where it stands,
    /// but for its first two octets (and, of SDCALL outbound, its last two).
    ///
    /// Refuses `Bad`, `NotNow` (no packet, or past its 1,000th message), `WrongLength`.
    pub fn message(&mut self, message: &mut [u8]) -> Result<(), Answer> {
        done(ffi::message(&mut self.octets, message))
    }

    /// A message that did not arrive.
    ///
    /// Refuses `Bad`, `NotNow` (no packet, or past its 1,000th message).
    pub fn lost(&mut self) -> Result<(), Answer> {
        done(ffi::packet_lost(&mut self.octets))
    }

    /// Ends a packet: its octets are zeros afterwards, and it can be opened again.
    ///
    /// Refuses `Bad`, `NotNow` (no packet).
    pub fn end(&mut self) -> Result<(), Answer> {
        done(ffi::packet_end(&mut self.octets))
    }
}

/// No octets: the key is among them.
impl fmt::Debug for Packet {
    fn fmt(&self, f: &mut fmt::Formatter<'_>) -> fmt::Result {
        f.debug_struct("Packet").finish_non_exhaustive()
    }
}
