/// What an input accepts from the operator, and how its number is shown: (raw value + offset) / 10^places, rounded to the decimals.
#[derive(Clone, Copy, Debug, PartialEq, Eq, Hash)]
pub struct Limits {
    /// The number of its kind (ISO 11783-6): 7 Input Boolean, 8 Input String, 9 Input Number, 10 Input List.
    pub kind: u8,
    /// Whether it accepts anything now.
    pub is_enabled: bool,
    /// The decimal places by which the scale moves a number, 0 to 3.
    pub places: u8,
    /// The number of decimals shown, 0 to 7.
    pub decimals: u8,
    /// The number of items of an Input List, or 0.
    pub items: u8,
    /// The most bytes of a text, or 0.
    pub length: u8,
    /// The raw value that it shows: its own, or that of its variable. Of an Input String 0.
    pub value: u32,
    /// The least raw value that is accepted.
    pub minimum: u32,
    /// The greatest raw value that is accepted. It is below the least where no number is.
    pub maximum: u32,
    /// The number added to a raw value before it is scaled.
    pub offset: i32,
}

impl Limits {
    /// The limits in 24 bytes of the library, or none in no bytes.
    pub(crate) fn from_bytes(bytes: &[u8]) -> Option<Limits> {
        let number = |at: usize| {
            let four: [u8; 4] = bytes.get(at..at + 4)?.try_into().ok()?;
            Some(u32::from_le_bytes(four))
        };
        let head: [u8; 8] = bytes.get(..8)?.try_into().ok()?;
        Some(Limits {
            kind: head[0],
            is_enabled: head[1] != 0,
            places: head[2],
            decimals: head[3],
            items: head[4],
            length: head[5],
            value: number(8)?,
            minimum: number(12)?,
            maximum: number(16)?,
            offset: number(20)? as i32,
        })
    }
}
