use crate::Error;
use std::fmt;

/// A CAN frame with an identifier of 29 bits and up to 8 data bytes (ISO 11783-3).
///
/// It is written as `candump -L` writes it: `14E72680#A0640000FFFFFFFF`.
#[derive(Clone, Copy, Debug, PartialEq, Eq, Hash)]
pub struct Frame {
    id: u32,
    // Those from `count` on are 0.
    bytes: [u8; 8],
    count: u8,
}

impl Frame {
    /// A frame with an identifier and its data. [`Error::NoSuchFrame`] for an identifier above `1FFF_FFFF` or more than 8 bytes.
    pub fn new(id: u32, data: &[u8]) -> Result<Frame, Error> {
        let count = data.len();
        if id > 0x1FFF_FFFF || count > 8 {
            return Err(Error::NoSuchFrame { id, count });
        }
        let mut bytes = [0; 8];
        bytes[..count].copy_from_slice(data);
        Ok(Frame {
            id,
            bytes,
            count: count as u8,
        })
    }

    /// The identifier, at most `1FFF_FFFF`.
    pub fn id(&self) -> u32 {
        self.id
    }

    /// The data, 0 to 8 bytes.
    pub fn data(&self) -> &[u8] {
        &self.bytes[..usize::from(self.count)]
    }

    /// The data as a number, the first byte lowest.
    pub(crate) fn bits(&self) -> u64 {
        u64::from_le_bytes(self.bytes)
    }

    /// A frame that the library sends.
    pub(crate) fn sent(id: u32, count: u32, bits: u64) -> Frame {
        let count = count.min(8) as u8;
        let mut bytes = bits.to_le_bytes();
        bytes[usize::from(count)..].fill(0);
        Frame { id, bytes, count }
    }
}

impl fmt::Display for Frame {
    fn fmt(&self, f: &mut fmt::Formatter<'_>) -> fmt::Result {
        write!(f, "{:08X}#", self.id)?;
        for byte in self.data() {
            write!(f, "{byte:02X}")?;
        }
        Ok(())
    }
}

#[cfg(test)]
mod tests {
    use super::*;

    #[test]
    fn frames_have_29_bits_and_8_bytes() {
        assert_eq!(
            Frame::new(0x2000_0000, &[]),
            Err(Error::NoSuchFrame {
                id: 0x2000_0000,
                count: 0
            })
        );
        assert_eq!(
            Frame::new(1, &[0; 9]),
            Err(Error::NoSuchFrame { id: 1, count: 9 })
        );
        assert!(Frame::new(0x1FFF_FFFF, &[0; 8]).is_ok());
    }

    #[test]
    fn frames_are_written_as_candump_does() {
        let frame = Frame::new(0x00EA_2680, &[0x00, 0xEE, 0x00]).unwrap();
        assert_eq!(frame.to_string(), "00EA2680#00EE00");
        assert_eq!(frame.bits(), 0xEE00);
    }

    #[test]
    fn sent_frames_equal_those_made() {
        let made = Frame::new(5, &[1, 2]).unwrap();
        assert_eq!(Frame::sent(5, 2, 0xFFFF_0201), made);
    }
}
