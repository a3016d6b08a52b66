use crate::set::NO_ID;

/// What happened in an input, for a host that displays masks, beeps and keeps a list of the working sets (docs/EMBEDDING.md, "Events").
#[derive(Clone, Copy, Debug, PartialEq, Eq, Hash)]
pub enum Event {
    /// A set registered where none was, or where one fell silent in the same input. [`sets`](crate::Terminal::sets) has its NAME.
    SetCame {
        /// The address of its master.
        address: u8,
    },
    /// A set fell silent. It is closed, and its pool is gone.
    SetSilent {
        /// The address of its master.
        address: u8,
    },
    /// A set is closed because its NAME does not hold its address any more. Its pool is gone.
    SetClosed {
        /// The address of its master.
        address: u8,
    },
    /// The first pool of a set is accepted.
    PoolAccepted {
        /// The address of the set.
        address: u8,
    },
    /// An update of a set's pool is accepted.
    PoolUpdated {
        /// The address of the set.
        address: u8,
    },
    /// An upload is refused because a record has a fault (docs/PROFILE.md, "Pools and faults").
    PoolFaulty {
        /// The address of the set.
        address: u8,
        /// The number of the fault, 1 to 5 or 7.
        fault: u32,
        /// Its offset in the bytes of the upload, at most `u32::MAX`.
        at: u32,
    },
    /// An upload is refused because the objects break a rule (docs/PROFILE.md, "Verification of a pool").
    PoolRefused {
        /// The address of the set.
        address: u8,
        /// The number of the rule, 1 to 12.
        rule: u16,
        /// The offset of a command in its macro, with the rules 7 and 10, or else 0. At most `u16::MAX`.
        at: u16,
        /// The object that breaks the rule, of a chain or a circle the first one.
        object: Option<u16>,
        /// The object to which it refers.
        other: Option<u16>,
    },
    /// The implement deleted the pool of its set.
    PoolDeleted {
        /// The address of the set.
        address: u8,
    },
    /// Another 1,024 bytes of an upload have come.
    Uploaded {
        /// The address of the set.
        address: u8,
        /// The bytes received.
        came: u32,
        /// The bytes received or announced by the message that is arriving.
        announced: u32,
    },
    /// A message to the implement, as a text of the operator, ended without an acknowledgement of its end.
    TextAborted {
        /// The address of the set.
        address: u8,
    },
    /// Another set, mask or soft key mask is shown, or no set is shown any more.
    Shown {
        /// The address of the shown set, if one is shown.
        address: Option<u8>,
        /// Its active mask, if it has one.
        mask: Option<u16>,
        /// The soft key mask of that mask, if it has one.
        soft_keys: Option<u16>,
    },
    /// An alarm mask is shown, or its priority or its acoustic signal is another one.
    Alarm {
        /// The address of its set.
        address: u8,
        /// The alarm mask.
        mask: u16,
        /// Its priority (ISO 11783-6): 0 high, 1 medium, 2 low. A record may hold another number.
        priority: u16,
        /// Its acoustic signal (ISO 11783-6): 0 highest, 1 medium, 2 lowest, 3 none. A record may hold another number.
        acoustic: u16,
    },
    /// No alarm mask is shown any more.
    AlarmOver {
        /// The address of the set whose alarm was shown last.
        address: u8,
    },
    /// A set asks for an audio signal (ISO 11783-6, Control Audio Signal).
    Signal {
        /// The address of the set.
        address: u8,
        /// How often it sounds.
        activations: u16,
        /// Hz.
        frequency: u16,
        /// The milliseconds that it sounds each time.
        on: u16,
        /// The milliseconds of silence after each time.
        off: u16,
    },
    /// A set asks for an audio volume (ISO 11783-6, Set Audio Volume).
    Volume {
        /// The address of the set.
        address: u8,
        /// Percent.
        percent: u32,
    },
    /// Another node took the terminal's address. Nothing is sent any more.
    AddressLost {
        /// The terminal's own address.
        address: u8,
    },
}

fn low(number: u32) -> u16 {
    (number & 0xFFFF) as u16
}

fn high(number: u32) -> u16 {
    (number >> 16) as u16
}

/// The ID of an object, if there is one.
fn id_of(number: u16) -> Option<u16> {
    (number != NO_ID).then_some(number)
}

impl Event {
    // The library gives the kinds 1 to 16 alone: `kind_of_event` of crates/vt_session/specs/Events.antt.
    pub(crate) fn of_numbers(kind: u32, address: u8, first: u32, second: u32) -> Event {
        match kind {
            1 => Event::SetCame { address },
            2 => Event::SetSilent { address },
            3 => Event::SetClosed { address },
            4 => Event::PoolAccepted { address },
            5 => Event::PoolUpdated { address },
            6 => Event::PoolFaulty {
                address,
                fault: first,
                at: second,
            },
            7 => Event::PoolRefused {
                address,
                rule: low(first),
                at: high(first),
                object: id_of(low(second)),
                other: id_of(high(second)),
            },
            8 => Event::PoolDeleted { address },
            9 => Event::Uploaded {
                address,
                came: first,
                announced: second,
            },
            10 => Event::TextAborted { address },
            11 => Event::Shown {
                address: (address < 254).then_some(address),
                mask: id_of(low(first)),
                soft_keys: id_of(low(second)),
            },
            12 => Event::Alarm {
                address,
                mask: low(first),
                priority: low(second),
                acoustic: high(second),
            },
            13 => Event::AlarmOver { address },
            14 => Event::Signal {
                address,
                activations: low(first),
                frequency: high(first),
                on: low(second),
                off: high(second),
            },
            15 => Event::Volume {
                address,
                percent: first,
            },
            16 => Event::AddressLost { address },
            other => panic!("the library gave the event {other}, which this crate does not know: link the libvt_terminal.a of the same commit"),
        }
    }
}
