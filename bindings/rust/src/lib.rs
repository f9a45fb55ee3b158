//! Groups that broadcast numbered items and settle k-set agreement, as values; peers, which are nodes of a group in
//! processes of their own; the judge of records of any such system; and the texts of scripts. This is safe Rust over a
//! proved library.
//!
//! ```
//! use castgroup::{Config, Event, Item, World};
//!
//! let mut world = World::new(&Config::of(2, 0))?;
//! world.step(&Event::order(0, "a"))?;
//! world.round()?;
//! assert!(world.at_rest());
//! assert_eq!(world.delivered(1, 0).next(), Some(Ok(Item::from("a"))));
//! # Ok::<(), Box<dyn std::error::Error>>(())
//! ```
//!
//! ```
//! let verdict = castgroup::judge(b"cast/1 1 0 1\nx 0\nb 0 0 data:61\nend\n")?;
//! assert_eq!(verdict, castgroup::Verdict::Bad { line: 3, rule: 5 });
//! # Ok::<(), castgroup::OutOfMemory>(())
//! ```
//!
//! The crate `cast_c` of the repository says what is proved. Unproved are the few lines here that turn values of Rust
//! into the numbers of the library.
#![warn(missing_docs)]
#![deny(unsafe_op_in_unsafe_fn)]

mod error;
mod event;
mod judge;
mod peer;
mod raw;
mod record;
mod text;
mod world;

pub use error::{ConfigError, JudgeError, MigrateError, OutOfMemory, PeerError, Refusal, StepError, TextError};
pub use event::{Config, Decision, Delivery, Event, Frame, Item, Mode, Outcome, Reply};
pub use judge::{judge, rule_text, Judge, Verdict};
pub use peer::{News, Packet, Peer, Saving, LOG_END, MOST_PACKET};
pub use text::{draw, migrate, page, run};
pub use world::World;

/// The version of the linked library: 10,000 times its major number, plus 100 times its minor number, plus its patch.
///
/// ```
/// assert_eq!(castgroup::library_version() / 100, 2);
/// ```
pub fn library_version() -> u32 {
    // SAFETY: it takes nothing.
    unsafe { raw::cast_c_version() }
}
