//! The judge of records.
use crate::error::{JudgeError, OutOfMemory};
use crate::raw;
use std::fmt;

/// What a judge says about a record. It is shown as `castgroup judge` writes it: `good`, or `bad LINE RULE`.
#[derive(Clone, Copy, Debug, PartialEq, Eq, PartialOrd, Ord, Hash)]
pub enum Verdict {
    /// It is a record, and no line breaks a rule.
    Good,
    /// This line, counted from 1, is the first that breaks a rule, and this is the least rule that it breaks, 0 to 6.
    Bad {
        /// The line.
        line: u64,
        /// The rule.
        rule: u64,
    },
}

impl fmt::Display for Verdict {
    fn fmt(&self, f: &mut fmt::Formatter<'_>) -> fmt::Result {
        match self {
            Verdict::Good => f.write_str("good"),
            Verdict::Bad { line, rule } => write!(f, "bad {line} {rule}"),
        }
    }
}

/// What a line did that breaks this rule, if there is such a rule.
pub fn rule_text(rule: u64) -> Option<&'static str> {
    Some(match rule {
        0 => "no line of a record, or a head or an end that is missing or stands again",
        1 => "a broadcast or a delivery out of turn, or a delivery of what was not broadcast",
        2 => "a broadcast after the sender's close",
        3 => "a decision that nobody proposed",
        4 => "more decided values in an instance than choices, where fewer nodes than choices may crash",
        5 => "a line of a node that has crashed",
        6 => "a second proposal of a node in an instance",
        _ => return None,
    })
}

/// The verdict on a record.
///
/// ```
/// use castgroup::{judge, Verdict};
///
/// assert_eq!(judge(b"cast/1 2 0 1\nend\n"), Ok(Verdict::Good));
/// ```
pub fn judge(record: &[u8]) -> Result<Verdict, OutOfMemory> {
    let mut said = raw::Verdict::default();
    // SAFETY: see `raw`.
    let status = unsafe { raw::cast_c_judge(record.as_ptr(), record.len(), &mut said) };
    verdict(status, &said)
}

fn verdict(status: u32, said: &raw::Verdict) -> Result<Verdict, OutOfMemory> {
    match status {
        raw::DONE => Ok(Verdict::Good),
        raw::BAD => Ok(Verdict::Bad { line: said.line, rule: said.rule }),
        _ => Err(OutOfMemory),
    }
}

/// A judge of a record that comes in pieces, whatever the cuts.
///
/// ```
/// use castgroup::{Judge, Verdict};
///
/// let mut judge = Judge::new()?;
/// judge.feed(b"cast/1 2 ")?;
/// judge.feed(b"0 1\nend\n")?;
/// assert_eq!(judge.finish()?, Verdict::Good);
/// # Ok::<(), Box<dyn std::error::Error>>(())
/// ```
pub struct Judge {
    handle: raw::Handle,
}

impl fmt::Debug for Judge {
    fn fmt(&self, f: &mut fmt::Formatter<'_>) -> fmt::Result {
        f.debug_struct("Judge").finish_non_exhaustive()
    }
}

// SAFETY: a judge owns its memory, and its calls take `&mut` or the judge itself.
unsafe impl Send for Judge {}

impl Judge {
    /// A judge that got nothing yet.
    pub fn new() -> Result<Judge, OutOfMemory> {
        let mut judge = Judge { handle: raw::Handle::EMPTY };
        // SAFETY: see `raw`.
        match unsafe { raw::cast_c_judge_new(&mut judge.handle) } {
            raw::DONE => Ok(judge),
            _ => Err(OutOfMemory),
        }
    }

    /// Takes the next piece. After `OutOfMemory`, every later call and `finish` return that too.
    pub fn feed(&mut self, piece: &[u8]) -> Result<(), JudgeError> {
        // SAFETY: see `raw`.
        match unsafe { raw::cast_c_judge_feed(&mut self.handle, piece.as_ptr(), piece.len()) } {
            raw::DONE => Ok(()),
            raw::REFUSED => Err(JudgeError::TooLong),
            _ => Err(JudgeError::OutOfMemory),
        }
    }

    /// What was found in the pieces so far: a line that breaks a rule, which will be the verdict whatever follows, or nothing.
    ///
    /// ```
    /// use castgroup::{Judge, Verdict};
    ///
    /// let mut judge = Judge::new()?;
    /// judge.feed(b"cast/1 2 0 1\n")?;
    /// assert_eq!(judge.so_far()?, None);
    /// judge.feed(b"d 0 1 0 close\n")?;
    /// assert_eq!(judge.so_far()?, Some(Verdict::Bad { line: 2, rule: 1 }));
    /// # Ok::<(), Box<dyn std::error::Error>>(())
    /// ```
    pub fn so_far(&mut self) -> Result<Option<Verdict>, OutOfMemory> {
        let (_, status, said) = self.look();
        match verdict(status, &said)? {
            Verdict::Good => Ok(None),
            bad => Ok(Some(bad)),
        }
    }

    /// How many lines so far break no rule.
    pub fn lines(&mut self) -> u64 {
        self.look().0
    }

    fn look(&mut self) -> (u64, u32, raw::Verdict) {
        let (mut lines, mut said) = (0, raw::Verdict::default());
        // SAFETY: see `raw`.
        let status = unsafe { raw::cast_c_judge_so_far(&mut self.handle, &mut lines, &mut said) };
        (lines, status, said)
    }

    /// The verdict on all pieces joined.
    pub fn finish(mut self) -> Result<Verdict, OutOfMemory> {
        let mut said = raw::Verdict::default();
        // SAFETY: see `raw`. The handle is empty afterwards, so its drop does nothing.
        let status = unsafe { raw::cast_c_judge_finish(&mut self.handle, &mut said) };
        verdict(status, &said)
    }
}

impl Drop for Judge {
    fn drop(&mut self) {
        // SAFETY: see `raw`.
        unsafe { raw::cast_c_judge_drop(&mut self.handle) }
    }
}

impl std::io::Write for Judge {
    /// Feeds the judge.
    fn write(&mut self, piece: &[u8]) -> std::io::Result<usize> {
        match self.feed(piece) {
            Ok(()) => Ok(piece.len()),
            Err(JudgeError::OutOfMemory) => Err(std::io::Error::from(std::io::ErrorKind::OutOfMemory)),
            Err(fault) => Err(std::io::Error::new(std::io::ErrorKind::InvalidInput, fault)),
        }
    }

    fn flush(&mut self) -> std::io::Result<()> {
        Ok(())
    }
}
