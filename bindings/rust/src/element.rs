use crate::set::NO_ID;

/// An element of the shown mask or of its soft keys, in pixels from the upper left corner of the mask.
#[derive(Clone, Copy, Debug, PartialEq, Eq, Hash)]
pub struct Element {
    /// The object: for a pointer that to which it leads.
    pub id: u16,
    /// The number of its kind (ISO 11783-6).
    pub kind: u8,
    /// How many elements are around it.
    pub depth: u8,
    /// The index in the list of the element around it. `None` in the mask itself, and for a soft key.
    pub around: Option<u16>,
    /// The left edge.
    pub x: i32,
    /// The upper edge.
    pub y: i32,
    /// The width, 0 for a Working Set, which has no size of its own.
    pub width: u32,
    /// The height, 0 for a Working Set.
    pub height: u32,
    /// Nothing of the element is shown outside of these.
    pub bounds: Bounds,
}

/// A part of a picture, from `left` to before `right`, and from `top` to before `bottom`. It is empty where it ends before it begins.
#[derive(Clone, Copy, Debug, PartialEq, Eq, Hash)]
pub struct Bounds {
    /// The first column.
    pub left: i32,
    /// The first row.
    pub top: i32,
    /// The column behind the last.
    pub right: i32,
    /// The row behind the last.
    pub bottom: i32,
}

impl Element {
    /// The element in 40 bytes of the library's list.
    pub(crate) fn from_bytes(bytes: &[u8]) -> Element {
        let half = |at: usize| u16::from_le_bytes([bytes[at], bytes[at + 1]]);
        let number = |at: usize| u32::from(half(at)) | u32::from(half(at + 2)) << 16;
        Element {
            id: half(0),
            kind: bytes[2],
            depth: bytes[3],
            around: Some(half(4)).filter(|around| *around != NO_ID),
            x: number(8) as i32,
            y: number(12) as i32,
            width: number(16),
            height: number(20),
            bounds: Bounds {
                left: number(24) as i32,
                top: number(28) as i32,
                right: number(32) as i32,
                bottom: number(36) as i32,
            },
        }
    }
}
