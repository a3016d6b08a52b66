use crate::raw::{Handle, Taken};
use crate::{Event, Frame};
use std::fmt;
use std::iter::FusedIterator;

/// An output of the terminal.
#[derive(Clone, Copy, Debug, PartialEq, Eq, Hash)]
pub enum Output {
    /// A frame to send on the bus.
    Frame(Frame),
    /// A refusal to show to the operator.
    Refused(Refusal),
    /// Something that happened. The events of an input come behind its frames and refusals.
    Event(Event),
}

/// Why an action of the operator was refused (docs/PROFILE.md, "Refusals"). Such an action changed nothing and sent nothing.
#[derive(Clone, Copy, Debug, PartialEq, Eq, Hash)]
pub enum Refusal {
    /// The object is not shown.
    NotShown,
    /// The input is not enabled.
    Disabled,
    /// The input does not accept the number.
    Range,
    /// The text is longer than the input.
    TooLong,
    /// The object is of a kind without this action.
    WrongKind,
    /// The key is not the one held.
    NotPressed,
    /// A key of the set is held already.
    Held,
    /// A long message to the set is still being sent. The action may be tried again later.
    Busy,
    /// No set is shown, or there is none with a pool at that address.
    NoSet,
}

impl Refusal {
    const ALL: [Refusal; 9] = [
        Refusal::NotShown,
        Refusal::Disabled,
        Refusal::Range,
        Refusal::TooLong,
        Refusal::WrongKind,
        Refusal::NotPressed,
        Refusal::Held,
        Refusal::Busy,
        Refusal::NoSet,
    ];

    /// The number of the refusal, 1 to 9, as docs/PROFILE.md has it.
    pub fn number(self) -> u32 {
        self as u32 + 1
    }

    // The library gives the numbers 1 to 9 alone: `fault_number` of crates/vt_session/specs/Outputs.antt.
    pub(crate) fn of_number(number: u32) -> Refusal {
        match Refusal::ALL.iter().find(|refusal| refusal.number() == number) {
            Some(refusal) => *refusal,
            None => panic!("the library gave the refusal {number}, which this crate does not know: link the libvt_terminal.a of the same commit"),
        }
    }
}

impl fmt::Display for Refusal {
    fn fmt(&self, f: &mut fmt::Formatter<'_>) -> fmt::Result {
        f.write_str(match self {
            Refusal::NotShown => "the object is not shown",
            Refusal::Disabled => "the input is disabled",
            Refusal::Range => "the number is out of range",
            Refusal::TooLong => "the text is too long",
            Refusal::WrongKind => "the object is of another kind",
            Refusal::NotPressed => "the key is not held",
            Refusal::Held => "a key is held already",
            Refusal::Busy => "a message is still being sent",
            Refusal::NoSet => "there is no such working set",
        })
    }
}

/// The outputs of one input, at most 1,024 frames and refusals, or 2,048 of an action at a time, in the order in which they are to be sent, and
/// then its events. It allocates nothing.
///
/// Those that are not taken are lost with it.
///
/// # Panics
/// `next` panics on a kind of output or event that this crate does not know, which a library of the same version never gives.
#[must_use = "the frames are to be sent, and those not taken are lost"]
#[derive(Debug)]
pub struct Outputs<'a> {
    handle: &'a mut Handle,
}

impl<'a> Outputs<'a> {
    pub(crate) fn new(handle: &'a mut Handle) -> Outputs<'a> {
        Outputs { handle }
    }
}

impl Iterator for Outputs<'_> {
    type Item = Output;

    fn next(&mut self) -> Option<Output> {
        self.handle.next().map(|taken| match taken {
            Taken::Frame { id, count, bits } => Output::Frame(Frame::sent(id, count, bits)),
            Taken::Refused(number) => Output::Refused(Refusal::of_number(number)),
            Taken::Event {
                kind,
                address,
                numbers,
            } => Output::Event(Event::of_numbers(
                kind,
                address as u8,
                numbers as u32,
                (numbers >> 32) as u32,
            )),
        })
    }
}

impl FusedIterator for Outputs<'_> {}

impl Drop for Outputs<'_> {
    fn drop(&mut self) {
        self.handle.discard();
    }
}

#[cfg(test)]
mod tests {
    use super::*;

    #[test]
    fn refusals_have_the_numbers_of_the_profile() {
        for (at, refusal) in Refusal::ALL.iter().enumerate() {
            assert_eq!(refusal.number() as usize, at + 1);
            assert_eq!(Refusal::of_number(refusal.number()), *refusal);
        }
    }
}
