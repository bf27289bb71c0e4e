#![no_std]
#![doc = include_str!("../README.md")]
#![warn(missing_docs, unsafe_op_in_unsafe_fn, clippy::undocumented_unsafe_blocks)]

extern crate alloc;
#[cfg(feature = "std")]
extern crate std;

mod error;
mod ffi;
mod handle;
mod lock;
mod payload;
mod ticket;

pub mod inbox;
pub mod list;
pub mod pile;
pub mod queue;
pub mod timers;

pub use error::{NoMemory, NotTaken};
pub use inbox::Inbox;
pub use list::List;
pub use pile::Pile;
pub use queue::Queue;
pub use ticket::Ticket;
pub use timers::Timers;

#[cfg(has_assembly)]
core::arch::global_asm!(include_str!(env!("CORDYCEPS_ASSEMBLY")), options(att_syntax, raw));
