//! Bindings to Zimatuno, a name index for query engines.
//!
//! Zimatuno keeps up to 1,024 named records in up to 8 balanced trees inside one
//! byte buffer that the caller lends, the *pool*. A record has a `u64` key, a name
//! of 1 to 255 bytes, and a [`Handle`], slot and stamp, that reaches it while it is
//! live and never reaches another. The pool is used through four doors:
//!
//! | door | here | what it does |
//! |---|---|---|
//! | create | [`create`] | writes a fresh pool into a buffer of [`pool_size`] bytes |
//! | check | [`check`] | tells whether bytes are a sound pool |
//! | batch | [`Batch::run`], [`run_batch`] on bytes | carries out up to 256 commands, each answered |
//! | name | [`name`] | the name of a live record by its handle, as a part of the pool |
//!
//! [`SoundPool`] lists the records of a pool by rising key.
//!
//! ```
//! use zimatuno::{create, name, pool_size, Batch, Refusal};
//!
//! # fn main() -> Result<(), Box<dyn std::error::Error>> {
//! // A pool for 4 records in 1 tree with 16 bytes of names.
//! let mut pool = vec![0; pool_size(4, 1, 16)?];
//! create(4, 1, 16, &mut pool)?;
//!
//! let answers = Batch::new().add(1, 10, b"id").add(1, 20, b"name").run(&mut pool)?;
//! let id = answers[0].handle().ok_or("no record")?;
//! assert_eq!(name(&pool, 1, id), Some(&b"id"[..]));
//!
//! // The record is removed and its slot taken again. The kept handle reaches neither.
//! let answers = Batch::new().remove(1, id).add(1, 30, b"price").next(1, id).run(&mut pool)?;
//! assert_eq!(answers[1].handle().map(|h| h.slot), Some(id.slot));
//! assert_eq!(answers[2].refusal(), Some(Refusal::Stale));
//! assert_eq!(name(&pool, 1, id), None);
//! # Ok(())
//! # }
//! ```
//!
//! # What is promised
//!
//! docs/REFERENCE.md of the project says what each door returns and leaves in
//! every buffer, on all inputs, and the library is proved to do that. This
//! crate is not proved: it lays out the bytes of a batch and reads those of answers
//! and of pools that check has found sound.
//!
//! The buffers of a call never overlap: they are slices, and the borrow rules let
//! nothing else share a byte with a `&mut [u8]`, nor another thread write to a slice in
//! use. A caller in C has to see to both.
//!
//! # Where it runs
//!
//! `bindings/library` of the project builds `libzimatuno.a` on x86-64 Linux. Where it is not there
//! this crate can be checked and documented, and nothing that calls it can be built: that is a
//! compile error, with a warning that says what to run.

#![deny(missing_docs, unsafe_code)]
#![warn(rust_2018_idioms)]

mod answer;
mod batch;
mod bytes;
mod commands;
mod listing;
mod pool;
mod refusal;
#[allow(unsafe_code)]
mod sys;

pub use crate::answer::{Answer, CursorKind, Shown};
pub use crate::batch::{run_batch, Batch, ANSWER_SIZE, MAX_COMMANDS, MAX_NAMES};
pub use crate::listing::{Record, Records, SoundPool};
pub use crate::pool::{check, create, name, pool_size, Handle};
pub use crate::pool::{MAX_SLOTS, MAX_TEXT, MAX_TREES};
pub use crate::refusal::{DoorError, Refusal};

/// The example of README.md, as a test.
#[cfg(doctest)]
#[doc = include_str!("../README.md")]
mod readme {}
