//! The texts of scripts, and the record that is migrated.
use crate::error::{ConfigError, MigrateError, OutOfMemory, TextError};
use crate::raw;
use std::ops::{Bound, RangeBounds};

/// The first buffer has this many bytes.
const FIRST_ROOM: usize = 65_536;

/// The record of a script, as `castgroup run` writes it.
///
/// ```
/// let script = br#"{"nodes":1,"faults":0,"choices":1,"events":[["crash",0]]}"#;
/// assert_eq!(castgroup::run(script)?, b"cast/1 1 0 1\nx 0\nend\n");
/// # Ok::<(), castgroup::TextError>(())
/// ```
pub fn run(script: &[u8]) -> Result<Vec<u8>, TextError> {
    text(|out, told| {
        // SAFETY: see `raw`.
        unsafe { raw::cast_c_run(script.as_ptr(), script.len(), out.as_mut_ptr(), out.len(), told) }
    })
}

/// The picture of a script's events, as SVG. It shows the events whose places are in the range: `..` shows all.
///
/// ```
/// let script = br#"{"nodes":1,"faults":0,"choices":1,"events":[["crash",0]]}"#;
/// assert!(castgroup::draw(script, ..)?.starts_with(b"<svg"));
/// assert_eq!(castgroup::draw(script, 0..=9), castgroup::draw(script, ..));
/// # Ok::<(), castgroup::TextError>(())
/// ```
pub fn draw(script: &[u8], window: impl RangeBounds<u64>) -> Result<Vec<u8>, TextError> {
    let (from, to) = ends(&window);
    text(|out, told| {
        // SAFETY: see `raw`.
        unsafe { raw::cast_c_draw(script.as_ptr(), script.len(), from, to, out.as_mut_ptr(), out.len(), told) }
    })
}

/// The page that steps through a script's run, as HTML: its picture, and for each event in words what happened. It has
/// the events whose places are in the range, as `castgroup draw --html` writes them.
///
/// ```
/// let script = br#"{"nodes":1,"faults":0,"choices":1,"events":[["crash",0]]}"#;
/// assert!(castgroup::page(script, ..)?.starts_with(b"<!DOCTYPE html>"));
/// # Ok::<(), castgroup::TextError>(())
/// ```
pub fn page(script: &[u8], window: impl RangeBounds<u64>) -> Result<Vec<u8>, TextError> {
    let (from, to) = ends(&window);
    text(|out, told| {
        // SAFETY: see `raw`.
        unsafe { raw::cast_c_page(script.as_ptr(), script.len(), from, to, out.as_mut_ptr(), out.len(), told) }
    })
}

/// A record of format `cast/1` with the head of `cast/2`, and otherwise the same bytes.
///
/// ```
/// use castgroup::{migrate, MigrateError};
///
/// assert_eq!(migrate(b"cast/1 2 0 1\nend\n")?, b"cast/2 2 0 1 basic\nend\n");
/// assert_eq!(migrate(b"cast/2 2 0 1 basic\nend\n"), Err(MigrateError::NotV1));
/// # Ok::<(), MigrateError>(())
/// ```
pub fn migrate(record: &[u8]) -> Result<Vec<u8>, MigrateError> {
    let answer = asked(|out, told| {
        // SAFETY: see `raw`.
        unsafe { raw::cast_c_migrate(record.as_ptr(), record.len(), out.as_mut_ptr(), out.len(), &mut told.length) }
    });
    match answer {
        Ok((raw::DONE, out, _)) => Ok(out),
        Ok((raw::REFUSED, ..)) => Err(MigrateError::NotV1),
        _ => Err(MigrateError::OutOfMemory),
    }
}

/// Calls for a text, and again if the first buffer was too short. Returns the status, the text and its numbers.
fn asked(mut ask: impl FnMut(&mut [u8], &mut raw::Text) -> u32) -> Result<(u32, Vec<u8>, raw::Text), OutOfMemory> {
    let mut told = raw::Text::default();
    let mut out = Vec::new();
    grow(&mut out, FIRST_ROOM)?;
    let mut status = ask(&mut out, &mut told);
    if status == raw::TOO_SHORT {
        grow(&mut out, told.length as usize)?;
        status = ask(&mut out, &mut told);
    }
    out.truncate(told.length as usize);
    Ok((status, out, told))
}

fn grow(out: &mut Vec<u8>, room: usize) -> Result<(), OutOfMemory> {
    out.try_reserve_exact(room.saturating_sub(out.len()))?;
    out.resize(room, 0);
    Ok(())
}

fn text(ask: impl FnMut(&mut [u8], &mut raw::Text) -> u32) -> Result<Vec<u8>, TextError> {
    let (status, out, told) = asked(ask).map_err(|OutOfMemory| TextError::OutOfMemory)?;
    match status {
        raw::DONE => Ok(out),
        raw::REFUSED => Err(fault(&told)),
        _ => Err(TextError::OutOfMemory),
    }
}

/// The first and the last place of a range. An empty range gives 1 and 0.
fn ends(window: &impl RangeBounds<u64>) -> (u64, u64) {
    let from = match window.start_bound() {
        Bound::Included(&from) => Some(from),
        Bound::Excluded(&before) => before.checked_add(1),
        Bound::Unbounded => Some(0),
    };
    let to = match window.end_bound() {
        Bound::Included(&to) => Some(to),
        Bound::Excluded(&behind) => behind.checked_sub(1),
        Bound::Unbounded => Some(u64::MAX),
    };
    from.zip(to).unwrap_or((1, 0))
}

fn fault(told: &raw::Text) -> TextError {
    match told.fault {
        1 => TextError::TooLong,
        2 => TextError::NotJson,
        3 => TextError::Shape(told.place),
        _ => TextError::Config(ConfigError::from_code(told.place).unwrap_or(ConfigError::Mode)),
    }
}
