//! An ISOBUS virtual terminal (ISO 11783-6): the display in a tractor cab that runs the screens an implement uploads to it.
//!
//! A [`Terminal`] takes frames of the bus, the time and actions of the operator, and gives the frames to send, the refusals to the
//! operator, the screen as text, each object as it is now, pictures of masks, and what the dialogs of inputs need. It has no thread, no
//! file and no clock. It is the proved library `libvt_terminal.a` behind safe calls; `docs/EMBEDDING.md` of the repository explains it.
//!
//! ```
//! use segyolant::{Frame, Output, Terminal};
//!
//! # fn main() -> Result<(), segyolant::Error> {
//! let mut terminal = Terminal::new(0x26, 0x2000_1D00_0000_0001)?;
//! // A request for the terminal's address claim, at 1.5 seconds.
//! let request = Frame::new(0x18EA_2680, &[0x00, 0xEE, 0x00])?;
//! for output in terminal.hear(1_500_000, &request)? {
//!     match output {
//!         Output::Frame(frame) => assert_eq!(frame.to_string(), "18EEFF26#01000000001D0020"),
//!         Output::Refused(refusal) => println!("not possible: {refusal}"),
//!         Output::Event(event) => println!("{event:?}"),
//!     }
//! }
//! assert_eq!(terminal.screen()?, "screen none\n");
//! # Ok(())
//! # }
//! ```
//!
//! # Memory
//!
//! The feature `heap`, on by default, gives the library memory of the global allocator. Without it the program defines
//! `rattle_alloc`, `rattle_realloc` and `rattle_dealloc` (`include/vt_heap.h`), which must be safe to call from each thread that
//! uses a terminal.

#![deny(missing_docs)]
#![deny(unsafe_code)]
#![deny(unsafe_op_in_unsafe_fn)]

mod element;
mod error;
mod event;
mod frame;
mod limits;
mod output;
mod profile;
#[allow(unsafe_code)]
mod raw;
mod set;
mod terminal;

pub use element::{Bounds, Element};
pub use error::Error;
pub use event::Event;
pub use frame::Frame;
pub use limits::Limits;
pub use output::{Output, Outputs, Refusal};
pub use profile::Profile;
pub use set::{Active, Set};
pub use terminal::{Terminal, LATEST};
