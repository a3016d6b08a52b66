use crate::raw::VERSION;
use std::fmt;

/// Why a call failed. The terminal is unchanged, but for the time of an action without memory ([`Error::OutOfMemory`]).
#[derive(Clone, Copy, Debug, PartialEq, Eq)]
#[non_exhaustive]
pub enum Error {
    /// A terminal was to be made at an address above 253 (ISO 11783-5: 254 is the null address, 255 the global one).
    OwnAddress(u8),
    /// Memory was refused. The same call may be made again. After one of an action the time may have moved on: then the outputs of that
    /// are taken first, by [`Terminal::waiting`](crate::Terminal::waiting), or the next call drops them.
    OutOfMemory,
    /// There is no frame with this identifier and this number of data bytes.
    NoSuchFrame {
        /// The identifier, at most `1FFF_FFFF` in a frame.
        id: u32,
        /// The number of data bytes, at most 8 in a frame.
        count: usize,
    },
    /// No set may be preloaded at this address: it is above 253, the terminal's own, or has a set already.
    NotFree(u8),
    /// The bytes are no accepted object pool.
    NotAPool,
    /// The library is of another version than this crate.
    OtherVersion(u32),
    /// The library returned a result that it does not have here.
    Unexpected(u32),
}

impl fmt::Display for Error {
    fn fmt(&self, f: &mut fmt::Formatter<'_>) -> fmt::Result {
        match self {
            Error::OwnAddress(own) => write!(
                f,
                "{own} ({own:02X}) is no address of a terminal: take one up to 253 (FD), such as 38 (26)"
            ),
            Error::OutOfMemory => f.write_str(
                "memory was refused: free some, or give the arena more, take what `waiting` has after an action, and make the call again",
            ),
            Error::NoSuchFrame { id, count } => write!(
                f,
                "there is no frame with the identifier {id:X} and {count} data bytes: an identifier is at most 1FFFFFFF, and a frame has at most 8 bytes"
            ),
            Error::NotFree(address) => write!(
                f,
                "no set can be preloaded at {address} ({address:02X}): take an address up to 253 (FD) that is not the terminal's own and has no set yet"
            ),
            Error::NotAPool => f.write_str(
                "the bytes are no accepted object pool: `segyolant check FILE` names each fault, and docs/POOLS.md has its cure",
            ),
            Error::OtherVersion(version) => write!(
                f,
                "the library has the version {version:06X}, and this crate {VERSION:06X}: link the libvt_terminal.a of the same commit"
            ),
            Error::Unexpected(status) => write!(
                f,
                "the library returned the result {status}, which this crate does not know: link the libvt_terminal.a of the same commit"
            ),
        }
    }
}

impl std::error::Error for Error {}
