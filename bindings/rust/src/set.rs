/// The number of no object.
pub(crate) const NO_ID: u16 = 0xFFFF;

/// A working set.
#[derive(Clone, Copy, Debug, PartialEq, Eq, Hash)]
pub struct Set {
    /// The address of its master.
    pub address: u8,
    /// The NAME of its master (ISO 11783-5). `None` for a preloaded set before a claim of its address.
    pub name: Option<u64>,
    /// Whether it has an object pool.
    pub has_pool: bool,
    /// Whether it is the shown one.
    pub is_shown: bool,
}

impl Set {
    /// The set in 16 bytes of the library's list.
    pub(crate) fn from_bytes(bytes: &[u8]) -> Set {
        let name = bytes[8..].iter().rev();
        let name = name.fold(0, |name, byte| name << 8 | u64::from(*byte));
        Set {
            address: bytes[0],
            name: (bytes[3] != 0).then_some(name),
            has_pool: bytes[1] != 0,
            is_shown: bytes[2] != 0,
        }
    }
}

/// What is active in a working set, each by its ID, and `None` where there is none.
#[derive(Clone, Copy, Debug, PartialEq, Eq, Hash)]
pub struct Active {
    /// The data mask or alarm mask.
    pub mask: Option<u16>,
    /// The soft key mask of the mask.
    pub soft_key_mask: Option<u16>,
    /// The input that the operator selected.
    pub input: Option<u16>,
    /// The key or button that the operator holds.
    pub key: Option<u16>,
}

impl Active {
    /// The four IDs in a number, the first lowest.
    pub(crate) fn from_ids(ids: u64) -> Active {
        let id = |bit: u32| Some((ids >> bit) as u16).filter(|id| *id != NO_ID);
        Active {
            mask: id(0),
            soft_key_mask: id(16),
            input: id(32),
            key: id(48),
        }
    }
}
