use crate::answer::done;
use crate::kept::kept;
use crate::{answered, ffi, Answer, Book, Cipher, Counts, End, Rate, Step, Strictness, Vector};
use crate::{CALL, VECTOR};
use core::fmt;

kept! {
    /// One call that is sent or received, with its own copy of its key; or no call.
    ///
    /// It is neither `Copy` nor `Clone`, because an older copy of a call must not be used: it
    /// would turn a slot by the bits of another one. What is restored from stored octets takes
    /// the place of the call that they were stored from. Dropping a call zeroes it, as
    /// [`end`](Call::end) does; moving one leaves its octets behind, so keep it in one place.
    ///
    /// ```compile_fail
    /// let call = nxdn::Call::new();
    /// let older = call.clone();
    /// ```
    Call, CALL
}

impl Call {
    /// Receives a call from its opening on, with the first session's vector.
    ///
    /// Refuses `OutOfRange`, `Bad` (the call), `NotNow` (a call stands), `Bad` (the book),
    /// `NoEntry`, `NotReady`.
    pub fn open(
        &mut self,
        cipher: Cipher,
        id: u8,
        rate: Rate,
        strictness: Strictness,
        vector: Vector,
        book: &Book,
    ) -> Result<(), Answer> {
        let (call, book) = (&mut self.octets, book.octets());
        done(ffi::open(call, cipher, id, rate, strictness, &vector, book))
    }

    /// Sends a call, with the first session's vector.
    ///
    /// Refuses as [`open`](Call::open), and `ZeroVector` last.
    pub fn start(
        &mut self,
        cipher: Cipher,
        id: u8,
        rate: Rate,
        vector: Vector,
        book: &Book,
    ) -> Result<(), Answer> {
        done(ffi::start(&mut self.octets, cipher, id, rate, &vector, book.octets()))
    }

    /// Receives a call from the end of a first superframe on.
    ///
    /// Refuses as [`open`](Call::open).
    pub fn join(
        &mut self,
        cipher: Cipher,
        id: u8,
        rate: Rate,
        strictness: Strictness,
        book: &Book,
    ) -> Result<(), Answer> {
        done(ffi::join(&mut self.octets, cipher, id, rate, strictness, book.octets()))
    }

    /// A slot that is sent, or that arrived: the words of the mask (bit 0 is the first word) are
    /// turned in the frame, where they stand. A receiver gives the mask that the sender had, and
    /// tells of every slot in turn, arrived or [`lost`](Call::lost).
    ///
    /// Refuses `BadMask`, `Bad`, `NotNow` (no call), `PastLimit`, `WrongLength` (the frame).
    pub fn voice(&mut self, mask: u8, frame: &mut [u8]) -> Result<Slot, Answer> {
        answered(ffi::voice(&mut self.octets, mask, frame))
    }

    /// A slot that did not arrive.
    ///
    /// Refuses `Bad`, `NotNow` (no call that is received), `PastLimit`.
    pub fn lost(&mut self) -> Result<(), Answer> {
        done(ffi::lost(&mut self.octets))
    }

    /// A vector was heard: the call keeps it, and announces it by itself as its session starts.
    /// The last that is heard counts.
    ///
    /// Tell of the slot first and then of the vector that was heard in it, and tell each vector
    /// once. Before a session's first slot a vector is taken for that session's own, if it still
    /// awaits one; and one that is told again after its session started, for the next one's.
    ///
    /// Refuses `Bad`, `NotNow` (no DES or AES call that is received).
    pub fn heard(&mut self, vector: Vector) -> Result<(), Answer> {
        done(ffi::heard(&mut self.octets, &vector))
    }

    /// For a caller that keeps the time itself: the vector of the session that starts now, before
    /// its first slot, and once.
    ///
    /// Refuses `Bad`, `NotNow` (at any other time).
    pub fn announce(&mut self, vector: Vector) -> Result<(), Answer> {
        done(ffi::announce(&mut self.octets, &vector))
    }

    /// The next session's vector of a call that is sent, for its announcement.
    ///
    /// Refuses `Bad`, `NotNow` (no DES or AES call that is sent).
    pub fn next_vector(&self) -> Result<Vector, Answer> {
        let mut vector = [0; VECTOR];
        done(ffi::next_vector(&self.octets, &mut vector))?;
        Ok(vector)
    }

    /// Slots, losses and vectors of a recording at once: what [`voice`](Call::voice),
    /// [`lost`](Call::lost), [`announce`](Call::announce) and [`heard`](Call::heard) do in turn,
    /// and faster where a batch has most slots of a session: it makes a session's keystream once,
    /// and whole. Each step gets the number of its answer, for [`answered`]; one that is refused
    /// changed nothing, and the next is taken all the same. Frames are turned in their steps.
    ///
    /// Refuses `WrongLength` (not one answer to a step), and then no step is taken.
    ///
    /// ```
    /// # use nxdn::{Answer, Book, Call, Cipher, Name, Rate, Slot, Strictness};
    /// use nxdn::{answered, Step};
    ///
    /// # let mut book = Book::new();
    /// # book.begin(Cipher::Scramble, 7, Name::default())?;
    /// # book.add(Cipher::Scramble, 7, &[0x5A, 0x3C])?;
    /// # book.finish(Cipher::Scramble, 7)?;
    /// # let (mut sender, mut call) = (Call::new(), Call::new());
    /// # sender.start(Cipher::Scramble, 7, Rate::Half, [0; 8], &book)?;
    /// # call.open(Cipher::Scramble, 7, Rate::Half, Strictness::Recorder, [0; 8], &book)?;
    /// # let mut frame = *b"CAFFEINE 20 MG PER KG, NOW..";
    /// # assert_eq!(sender.voice(15, &mut frame)?, Slot::Turned);
    /// let mut steps = [Step::voice(15, &frame)?, Step::lost()];
    /// let mut answers = [0; 2];
    /// call.batch(&mut steps, &mut answers)?;
    /// assert_eq!(answered(answers[0])?, Slot::Turned);
    /// assert_eq!(steps[0].frame(Rate::Half), b"CAFFEINE 20 MG PER KG, NOW..");
    /// # assert_eq!(call.end()?.lost, 4);
    /// # Ok::<(), Answer>(())
    /// ```
    pub fn batch(&mut self, steps: &mut [Step], answers: &mut [u8]) -> Result<(), Answer> {
        done(ffi::batch(&mut self.octets, steps, answers))
    }

    /// Ends a call: its octets are zeros afterwards, and it can be opened again. Of a call that
    /// was received it says how many words were kept; of one that was sent, zeros.
    ///
    /// Refuses `Bad`, `NotNow` (no call).
    pub fn end(&mut self) -> Result<Counts, Answer> {
        let mut counts = [0; ffi::COUNTS];
        done(ffi::end(&mut self.octets, &mut counts))?;
        let [opened, held, replaced, lost] = counts;
        Ok(Counts { opened, held, replaced, lost })
    }

    /// What a screen shows of the call; `None` where there is none.
    ///
    /// Refuses `Bad`.
    pub fn show(&self) -> Result<Option<Shown>, Answer> {
        let mut shown = [0; ffi::SHOWN_CALL];
        done(ffi::show(&self.octets, &mut shown))?;
        let [end, cipher, rate, position, turns] = shown;
        if end == 0 {
            return Ok(None);
        }
        let (end, cipher, rate) = (End::of(end)?, Cipher::of(cipher)?, Rate::of(rate)?);
        Ok(Some(Shown { end, cipher, rate, position, turns: turns == 1 }))
    }
}

/// What a screen shows of the call, without its key.
impl fmt::Debug for Call {
    fn fmt(&self, f: &mut fmt::Formatter<'_>) -> fmt::Result {
        f.debug_tuple("Call").field(&self.show()).finish()
    }
}

/// What became of a slot's frame.
#[derive(Clone, Copy, Debug, PartialEq, Eq, Hash)]
#[must_use = "a held frame is as it came: neither opened nor protected"]
pub enum Slot {
    /// The words of the mask are turned: opened, or protected.
    Turned,
    /// The session's vector is not known to this receiver: the slot is counted, and its frame is
    /// as it came.
    Held,
}

/// What a screen shows of a call that stands.
#[derive(Clone, Copy, Debug, PartialEq, Eq)]
pub struct Shown {
    /// Whether it is sent or received.
    pub end: End,
    /// Its cipher.
    pub cipher: Cipher,
    /// Its rate.
    pub rate: Rate,
    /// The position of the next slot in its session: below 4 with scramble, else below 8.
    pub position: u8,
    /// Whether a slot with a right mask and frame is turned now.
    pub turns: bool,
}
