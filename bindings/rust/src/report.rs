use crate::answer::done;
use crate::{ffi, Answer};

/// What became of the words of a call that was received: four to a slot.
#[derive(Clone, Copy, Debug, Default, PartialEq, Eq, Hash)]
#[repr(C)] // lent to the report as it lies
pub struct Counts {
    /// Handed out as they were spoken.
    pub opened: u32,
    /// Kept as they came: their session's vector was not known.
    pub held: u32,
    /// Gave way to signalling: not in the mask.
    pub replaced: u32,
    /// Did not arrive.
    pub lost: u32,
}

/// The counts of many calls, added up.
#[derive(Clone, Copy, Debug, Default, PartialEq, Eq, Hash)]
pub struct Report {
    /// Words that were opened.
    pub opened: u64,
    /// Words that were held.
    pub held: u64,
    /// Words that gave way to signalling.
    pub replaced: u64,
    /// Words that did not arrive.
    pub lost: u64,
    /// Of the words that arrived as voice, those that were opened,
    pub part: u64,
    /// and all of them: opened and held.
    pub whole: u64,
}

/// Adds up the counts of up to 10,000 calls, as [`Call::end`](crate::Call::end) gives them.
///
/// Refuses `PastLimit` (more calls, or a count above 4,000,000).
///
/// ```
/// use nxdn::{report, Counts};
///
/// let first = Counts { opened: 30, held: 8, replaced: 2, lost: 4 };
/// let second = Counts { opened: 12, ..Counts::default() };
/// let night = report(&[first, second])?;
/// assert_eq!((night.part, night.whole), (42, 50));
/// # Ok::<(), nxdn::Answer>(())
/// ```
pub fn report(calls: &[Counts]) -> Result<Report, Answer> {
    let mut sums = [0; ffi::SUMS];
    done(ffi::report(calls, &mut sums))?;
    let [opened, held, replaced, lost, part, whole] = sums;
    Ok(Report { opened, held, replaced, lost, part, whole })
}
