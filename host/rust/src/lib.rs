//! The storage unit of an emulated System/370: storage keys, two processors with prefixing, fetch
//! and store, the six storage-key instructions, SET PREFIX and STORE PREFIX.
//!
//! A [`Machine`] holds the storage, its keys and the records of two processors, and
//! the [`Cpu`] that [`Machine::cpu`] gives has a method for each operation. A request gives a
//! [`Completed`] or a [`Refusal`], and one that is refused has changed nothing. Most [`Reason`]s are
//! the manual's program exceptions. The functions [`request`], [`fetch`] and [`store`] do the same
//! with what is lent to each call. [`Machine::play`] and [`Machine::play_all`] take a recording of
//! many requests, and give a line of text for each. [`Machine::channel`] runs a program of a
//! channel, which reads and writes storage under its own key, and [`Machine::channel_step`] one
//! step of it.
//!
//! The work is done by the static library `libstorage_unit.a`, for x86-64 Linux. What it answers
//! and leaves is proved for all inputs, against rules that rest on the IBM System/370 Principles
//! of Operation, GA22-7000. Bits are numbered as in that manual: bit 0 is the leftmost. Nothing in
//! this crate panics.
//!
//! # Linking
//!
//! The build links the file that the variable `STORAGE_UNIT_LIBRARY` names; else
//! `lib/libstorage_unit.a` in the folder that `STORAGE_UNIT_PREFIX` names, where `host/install` has
//! put it; else `target/staticlib/libstorage_unit.a` of the clone, which `host/library` writes.
//!
//! # Example
//!
//! ```
//! use storage_unit::{Machine, Processor, Reason, Refusal, Settings};
//!
//! /// Processor 0 runs the control program, processor 1 a program with PSW key 8.
//! fn run() -> Result<Machine, Refusal> {
//!     let mut machine = Machine::new(Settings::default(), 65_536)?;
//!     machine.processors[1] = Processor { psw_key: 8, problem: true, ..Processor::default() };
//!
//!     // The program has the 2K block at 8192. Access control is in the upper half of a key.
//!     machine.cpu(0).ssk(0x80, 8192)?;
//!     machine.cpu(0).ssk(0x90, 10_240)?;
//!
//!     let mut program = machine.cpu(1);
//!     program.store(8192, b"SAMPLE 1")?;
//!     let refusal = program.store(10_236, b"SAMPLE 2").unwrap_err();
//!     assert_eq!(refusal, Refusal { reason: Reason::Protection, place: 4 });
//!     assert_eq!(refusal.to_string(), "protection exception (number 4), place 4");
//!     assert_eq!(refusal.reason.interruption_code(), Some(4));
//!     Ok(machine)
//! }
//!
//! let machine = run()?;
//! assert_eq!(&machine.storage[8192..8200], b"SAMPLE 1");
//! assert_eq!(&machine.storage[10_236..10_244], [0; 8]);
//! # Ok::<(), Refusal>(())
//! ```

#![deny(missing_docs)]
#![deny(unsafe_op_in_unsafe_fn)]
#![warn(clippy::undocumented_unsafe_blocks)]

mod answers;
pub mod boundary;
mod calls;
mod channel;
mod machine;
mod player;
mod requests;
mod state;
mod version;

pub use answers::{Answer, Completed, Reason, Refusal, Rule, UnknownReason};
pub use calls::{fetch, request, store};
pub use channel::{
    Chaining, ChannelProgress, ChannelRecord, ChannelRefusal, ChannelReply, ChannelRequest,
    ChannelStatus, UnknownChannelRefusal,
};
pub use machine::{BorrowedMachine, Cpu, Machine};
pub use player::{PlayStatus, Played, PlayedAll, Player};
pub use requests::{AccessKind, KeyInstruction, PrefixInstruction, Request};
pub use state::{ACCESS_MAXIMUM, Processor, STORAGE_MAXIMUM, STORAGE_MULTIPLE, Settings, key};
pub use version::{VERSION, Version, version};

/// The program in the README, which is run with the tests of the documentation.
#[cfg(doctest)]
#[doc = include_str!("../README.md")]
pub struct Readme;
