/// What the terminal answers to requests for its technical data (ISO 11783-6, Get Memory, Get Number of Soft Keys, Get Text Font
/// Data, Get Hardware), and the sizes by which pictures, elements and touches are made. It changes nothing else. The default is the profile of docs/PROFILE.md.
#[derive(Clone, Copy, Debug, PartialEq, Eq)]
pub struct Profile {
    /// The memory for pools, in bytes.
    pub memory: u32,
    /// The width of a soft key, in pixels.
    pub soft_key_width: u8,
    /// The height of a soft key, in pixels.
    pub soft_key_height: u8,
    /// The most keys of a soft key mask.
    pub virtual_soft_keys: u8,
    /// The keys that the operator has at once.
    pub physical_soft_keys: u8,
    /// The small fonts, a bit for each size.
    pub small_fonts: u8,
    /// The large fonts, a bit for each size.
    pub large_fonts: u8,
    /// The styles of fonts, a bit for each.
    pub font_styles: u8,
    /// The time from power to readiness, in seconds.
    pub boot_time: u8,
    /// The colours: 0 for 2, 1 for 16, 2 for 256.
    pub graphic_type: u8,
    /// The hardware, a bit for each feature.
    pub hardware: u8,
    /// The width of a mask, in pixels.
    pub width: u16,
    /// The height of a mask, in pixels.
    pub height: u16,
}

impl Default for Profile {
    fn default() -> Profile {
        Profile {
            memory: 1_048_576,
            soft_key_width: 64,
            soft_key_height: 64,
            virtual_soft_keys: 64,
            physical_soft_keys: 6,
            small_fonts: 0x7F,
            large_fonts: 0x7F,
            font_styles: 0,
            boot_time: 0,
            graphic_type: 2,
            hardware: 0,
            width: 480,
            height: 480,
        }
    }
}
