//! The library's functions behind a handle that owns a terminal. All `unsafe` code of the crate is here.

use crate::Profile;
use std::alloc::{alloc, dealloc, Layout};
use std::ptr::NonNull;

/// The statuses of the calls (`enum vt_result` of include/vt_terminal.h).
pub(crate) mod status {
    pub(crate) const DONE: u32 = 0;
    pub(crate) const NO_MEMORY: u32 = 1;
    pub(crate) const NO_SUCH: u32 = 2;
    pub(crate) const NO_POOL: u32 = 5;
}

/// The actions of the operator (`enum vt_action`).
#[derive(Clone, Copy)]
pub(crate) enum Action {
    Press = 0,
    Release = 1,
    Select = 2,
    Number = 3,
    Set = 4,
}

/// An output taken from the terminal.
pub(crate) enum Taken {
    Frame { id: u32, count: u32, bits: u64 },
    Refused(u32),
    Event { kind: u32, address: u32, numbers: u64 },
}

#[repr(C)]
struct VtTerminal {
    opaque: [u8; 0],
}

// These declarations are those of include/vt_terminal.h.
extern "C" {
    fn vt_version() -> u32;
    fn vt_size() -> usize;
    fn vt_init(
        at: *mut VtTerminal,
        own: u32,
        name: u64,
        memory: u32,
        keys: u32,
        fonts: u32,
        hardware: u32,
        size: u32,
    );
    fn vt_done(at: *mut VtTerminal);
    fn vt_preload_bytes(at: *mut VtTerminal, address: u32, pool: *const u8, count: usize) -> u32;
    fn vt_hear_bits(at: *mut VtTerminal, time: u64, id: u32, count: u32, bits: u64) -> u32;
    fn vt_tick(at: *mut VtTerminal, time: u64) -> u32;
    fn vt_act(at: *mut VtTerminal, time: u64, kind: u32, id: u32, number: u32) -> u32;
    fn vt_text_bytes(
        at: *mut VtTerminal,
        time: u64,
        id: u32,
        text: *const u8,
        count: usize,
    ) -> u32;
    fn vt_claim(at: *mut VtTerminal) -> u32;
    fn vt_status(at: *mut VtTerminal) -> u32;
    fn vt_next(at: *mut VtTerminal) -> u32;
    fn vt_output_id(at: *mut VtTerminal) -> u32;
    fn vt_output_count(at: *mut VtTerminal) -> u32;
    fn vt_output_data(at: *mut VtTerminal) -> u64;
    fn vt_redraws(at: *mut VtTerminal) -> u32;
    fn vt_text_of_screen(at: *mut VtTerminal) -> u64;
    fn vt_screen_word(at: *mut VtTerminal, index: u64) -> u64;
    fn vt_text_of_sets(at: *mut VtTerminal) -> u64;
    fn vt_text_of_elements(at: *mut VtTerminal) -> u64;
    fn vt_id_at(at: *mut VtTerminal, x: u32, y: u32) -> u64;
    fn vt_ids_of_active(at: *mut VtTerminal, address: u32) -> u64;
    fn vt_has_pool(at: *mut VtTerminal, address: u32) -> u64;
    fn vt_text_of_object(at: *mut VtTerminal, address: u32, id: u32) -> u64;
    fn vt_text_of_picture(at: *mut VtTerminal, address: u32, mask: u32) -> u64;
    fn vt_text_of_part(at: *mut VtTerminal, address: u32, id: u32) -> u64;
    fn vt_size_of_picture(at: *const VtTerminal, address: u32, mask: u32) -> u64;
    fn vt_look(at: *mut VtTerminal) -> u64;
    fn vt_text_of_limits(at: *mut VtTerminal, address: u32, id: u32) -> u64;
    fn vt_text_of_value(at: *mut VtTerminal, address: u32, id: u32) -> u64;
    fn vt_raw_of(
        at: *mut VtTerminal,
        address: u32,
        id: u32,
        sign: u32,
        digits: u64,
        decimals: u32,
    ) -> u64;
    fn vt_text_of_words(at: *mut VtTerminal, id: u32, count: u32, bits: u64) -> u64;
    fn vt_shown(at: *mut VtTerminal) -> u32;
    fn vt_lost(at: *mut VtTerminal) -> u32;
    fn vt_deadline(at: *mut VtTerminal) -> u64;
}

/// A terminal in memory of its own, from `vt_init` to `vt_done`.
#[derive(Debug)]
pub(crate) struct Handle {
    // A terminal made by `vt_init` and not yet ended, in memory of `layout`, reached by this pointer alone.
    at: NonNull<VtTerminal>,
}

// SAFETY: the library has no state but what this pointer reaches and what its functions of memory keep. Those of the feature `heap`
// may be called from any thread; of others the crate's documentation demands it. `Handle` is not `Sync`: the calls with `&self` are
// made by one thread at a time.
unsafe impl Send for Handle {}

/// The memory of a terminal.
fn layout() -> Option<Layout> {
    // SAFETY: `vt_size` has no precondition.
    let size = unsafe { vt_size() };
    Layout::from_size_align(size.max(1), 16).ok()
}

fn word(bytes: [u8; 4]) -> u32 {
    u32::from_le_bytes(bytes)
}

/// The version of the interface that this crate speaks: its first two numbers are those of the library.
pub(crate) const VERSION: u32 = 0x00_0200;

/// The version of the library, if it is another one than that of this crate.
pub(crate) fn other_version() -> Option<u32> {
    // SAFETY: the call takes and changes nothing.
    let version = unsafe { vt_version() };
    Some(version).filter(|version| version >> 8 != VERSION >> 8)
}

impl Handle {
    /// Makes a terminal at an address up to 253, or none if its memory was refused. The library has the version of this crate.
    pub(crate) fn new(own: u8, name: u64, profile: &Profile) -> Option<Handle> {
        let p = profile;
        // SAFETY: the layout has at least one byte.
        let memory = unsafe { alloc(layout()?) };
        let at = NonNull::new(memory.cast::<VtTerminal>())?;
        // SAFETY: `at` is writable memory of `vt_size` bytes at a multiple of 16, and nothing else points to it.
        unsafe {
            vt_init(
                at.as_ptr(),
                u32::from(own),
                name,
                p.memory,
                word([
                    p.soft_key_width,
                    p.soft_key_height,
                    p.virtual_soft_keys,
                    p.physical_soft_keys,
                ]),
                word([p.small_fonts, p.large_fonts, p.font_styles, 0]),
                word([p.boot_time, p.graphic_type, p.hardware, 0]),
                u32::from(p.width) | u32::from(p.height) << 16,
            );
        }
        Some(Handle { at })
    }

    pub(crate) fn preload(&mut self, address: u8, pool: &[u8]) -> u32 {
        // SAFETY: `at` is a terminal, lent alone; the slice is readable for its length during the call, and its pointer is not null.
        unsafe {
            vt_preload_bytes(
                self.at.as_ptr(),
                u32::from(address),
                pool.as_ptr(),
                pool.len(),
            )
        }
    }

    pub(crate) fn hear(&mut self, time: u64, id: u32, count: u32, bits: u64) -> u32 {
        // SAFETY: `at` is a terminal, lent alone.
        unsafe { vt_hear_bits(self.at.as_ptr(), time, id, count, bits) }
    }

    pub(crate) fn tick(&mut self, time: u64) -> u32 {
        // SAFETY: `at` is a terminal, lent alone.
        unsafe { vt_tick(self.at.as_ptr(), time) }
    }

    pub(crate) fn act(&mut self, time: u64, action: Action, id: u16, number: u32) -> u32 {
        // SAFETY: `at` is a terminal, lent alone.
        unsafe {
            vt_act(
                self.at.as_ptr(),
                time,
                action as u32,
                u32::from(id),
                number,
            )
        }
    }

    pub(crate) fn text(&mut self, time: u64, id: u16, text: &[u8]) -> u32 {
        // SAFETY: `at` is a terminal, lent alone; the slice is readable for its length during the call, and its pointer is not null.
        unsafe {
            vt_text_bytes(
                self.at.as_ptr(),
                time,
                u32::from(id),
                text.as_ptr(),
                text.len(),
            )
        }
    }

    pub(crate) fn claim(&mut self) -> u32 {
        // SAFETY: `at` is a terminal, lent alone.
        unsafe { vt_claim(self.at.as_ptr()) }
    }

    pub(crate) fn status(&mut self) -> u32 {
        // SAFETY: `at` is a terminal, lent alone.
        unsafe { vt_status(self.at.as_ptr()) }
    }

    /// Takes the next output, if one waits.
    pub(crate) fn next(&mut self) -> Option<Taken> {
        let at = self.at.as_ptr();
        // SAFETY: `at` is a terminal, lent alone.
        unsafe {
            match vt_next(at) {
                0 => None,
                1 => Some(Taken::Frame {
                    id: vt_output_id(at),
                    count: vt_output_count(at),
                    bits: vt_output_data(at),
                }),
                2 => Some(Taken::Refused(vt_output_id(at))),
                3 => Some(Taken::Event {
                    kind: vt_output_id(at),
                    address: vt_output_count(at),
                    numbers: vt_output_data(at),
                }),
                other => panic!("the library gave an output of the kind {other}, which this crate does not know: link the libvt_terminal.a of the same commit"),
            }
        }
    }

    /// Takes all outputs that wait.
    pub(crate) fn discard(&mut self) {
        // SAFETY: `at` is a terminal, lent alone.
        while unsafe { vt_next(self.at.as_ptr()) } != 0 {}
    }

    pub(crate) fn redraws(&self) -> bool {
        // SAFETY: `at` is a terminal, which no other thread uses, since `Handle` is not `Sync`.
        unsafe { vt_redraws(self.at.as_ptr()) != 0 }
    }

    pub(crate) fn look(&self) -> u64 {
        // SAFETY: `at` is a terminal, which no other thread uses, since `Handle` is not `Sync`.
        unsafe { vt_look(self.at.as_ptr()) }
    }

    /// Draws the screen and returns the number of its bytes, or `u64::MAX`.
    pub(crate) fn screen(&mut self) -> u64 {
        // SAFETY: `at` is a terminal, lent alone.
        unsafe { vt_text_of_screen(self.at.as_ptr()) }
    }

    /// Eight bytes of the text written last, from an index on.
    pub(crate) fn screen_word(&self, index: u64) -> u64 {
        // SAFETY: `at` is a terminal, which no other thread uses, since `Handle` is not `Sync`.
        unsafe { vt_screen_word(self.at.as_ptr(), index) }
    }

    /// Lists the working sets and returns the number of bytes of their list, 16 for each, or `u64::MAX`.
    pub(crate) fn sets(&mut self) -> u64 {
        // SAFETY: `at` is a terminal, lent alone.
        unsafe { vt_text_of_sets(self.at.as_ptr()) }
    }

    /// The active mask of a set, its soft key mask, its selected input and its held key, 16 bits each, the first lowest.
    pub(crate) fn active(&mut self, address: u8) -> u64 {
        // SAFETY: `at` is a terminal, lent alone.
        unsafe { vt_ids_of_active(self.at.as_ptr(), u32::from(address)) }
    }

    /// Whether there is a set with a pool at an address.
    pub(crate) fn has_pool(&mut self, address: u8) -> bool {
        // SAFETY: `at` is a terminal, lent alone.
        unsafe { vt_has_pool(self.at.as_ptr(), u32::from(address)) != 0 }
    }

    /// Writes the record of an object and returns the number of its bytes, or `u64::MAX`.
    pub(crate) fn object(&mut self, address: u8, id: u16) -> u64 {
        // SAFETY: `at` is a terminal, lent alone.
        unsafe { vt_text_of_object(self.at.as_ptr(), u32::from(address), u32::from(id)) }
    }

    /// Lists the elements of the shown mask and returns the number of bytes of their list, 40 for each, or `u64::MAX`.
    pub(crate) fn elements(&mut self) -> u64 {
        // SAFETY: `at` is a terminal, lent alone.
        unsafe { vt_text_of_elements(self.at.as_ptr()) }
    }

    /// The ID of what is shown at a place, 65535 or `u64::MAX`.
    pub(crate) fn touch(&mut self, x: u32, y: u32) -> u64 {
        // SAFETY: `at` is a terminal, lent alone.
        unsafe { vt_id_at(self.at.as_ptr(), x, y) }
    }

    /// Draws a mask as SVG and returns the number of bytes, or `u64::MAX`.
    pub(crate) fn picture(&mut self, address: u8, mask: u16) -> u64 {
        // SAFETY: `at` is a terminal, lent alone.
        unsafe { vt_text_of_picture(self.at.as_ptr(), u32::from(address), u32::from(mask)) }
    }

    /// Draws an object by itself as SVG and returns the number of bytes, or `u64::MAX`.
    pub(crate) fn part(&mut self, address: u8, id: u16) -> u64 {
        // SAFETY: `at` is a terminal, lent alone.
        unsafe { vt_text_of_part(self.at.as_ptr(), u32::from(address), u32::from(id)) }
    }

    /// The width of a picture, and its height times 2^32; 0 without a set that has a pool.
    pub(crate) fn picture_size(&self, address: u8, mask: u16) -> u64 {
        // SAFETY: `at` is a terminal, and the call changes nothing.
        unsafe { vt_size_of_picture(self.at.as_ptr(), u32::from(address), u32::from(mask)) }
    }

    /// Writes the limits of an input and returns the number of their bytes, 24 or 0, or `u64::MAX`.
    pub(crate) fn limits(&mut self, address: u8, id: u16) -> u64 {
        // SAFETY: `at` is a terminal, lent alone.
        unsafe { vt_text_of_limits(self.at.as_ptr(), u32::from(address), u32::from(id)) }
    }

    /// Writes the text of a field and returns the number of its bytes, or `u64::MAX`.
    pub(crate) fn value_text(&mut self, address: u8, id: u16) -> u64 {
        // SAFETY: `at` is a terminal, lent alone.
        unsafe { vt_text_of_value(self.at.as_ptr(), u32::from(address), u32::from(id)) }
    }

    /// Writes what a frame says in words and returns the number of bytes, or `u64::MAX`.
    pub(crate) fn words(&mut self, id: u32, count: u32, bits: u64) -> u64 {
        // SAFETY: `at` is a terminal, lent alone.
        unsafe { vt_text_of_words(self.at.as_ptr(), id, count, bits) }
    }

    /// The raw value of a typed number, or `u64::MAX`.
    pub(crate) fn raw(
        &self,
        address: u8,
        id: u16,
        is_negative: bool,
        digits: u64,
        decimals: u32,
    ) -> u64 {
        // SAFETY: `at` is a terminal, which no other thread uses, since `Handle` is not `Sync`.
        unsafe {
            vt_raw_of(
                self.at.as_ptr(),
                u32::from(address),
                u32::from(id),
                u32::from(is_negative),
                digits,
                decimals,
            )
        }
    }

    pub(crate) fn shown(&self) -> u32 {
        // SAFETY: `at` is a terminal, which no other thread uses, since `Handle` is not `Sync`.
        unsafe { vt_shown(self.at.as_ptr()) }
    }

    pub(crate) fn lost(&self) -> bool {
        // SAFETY: `at` is a terminal, which no other thread uses, since `Handle` is not `Sync`.
        unsafe { vt_lost(self.at.as_ptr()) != 0 }
    }

    pub(crate) fn deadline(&self) -> u64 {
        // SAFETY: `at` is a terminal, which no other thread uses, since `Handle` is not `Sync`.
        unsafe { vt_deadline(self.at.as_ptr()) }
    }
}

impl Drop for Handle {
    fn drop(&mut self) {
        // SAFETY: `at` is a terminal, used here for the last time.
        unsafe { vt_done(self.at.as_ptr()) };
        if let Some(layout) = layout() {
            // SAFETY: `at` came from `alloc` with the same layout, since `vt_size` is a constant.
            unsafe { dealloc(self.at.as_ptr().cast::<u8>(), layout) };
        }
    }
}

/// The library's three functions of memory over the global allocator (include/vt_heap.h). Each block has a header before it, which
/// keeps the size of both.
#[cfg(feature = "heap")]
mod heap {
    use std::alloc::{alloc, dealloc, realloc, Layout};

    // The size of the header, and the alignment of all blocks.
    const HEADER: usize = 16;

    /// Memory, or its refusal: `struct vt_memory`.
    #[repr(C)]
    pub struct Memory {
        ok: u64,
        at: u64,
    }

    const REFUSED: Memory = Memory { ok: 0, at: 0 };

    /// The layout of a block of this size with its header.
    fn layout(size: u64, align: u64) -> Option<Layout> {
        if align > HEADER as u64 {
            return None;
        }
        let whole = usize::try_from(size).ok()?.checked_add(HEADER)?;
        Layout::from_size_align(whole, HEADER).ok()
    }

    /// Writes the header of a block, unless it was refused.
    ///
    /// # Safety
    ///
    /// `block` is null or memory of `whole` bytes, at least 16, at a multiple of 16.
    unsafe fn with_header(block: *mut u8, whole: usize) -> Memory {
        if block.is_null() {
            return REFUSED;
        }
        // SAFETY: the first 16 bytes are the block's, and aligned for a `usize`.
        let at = unsafe {
            block.cast::<usize>().write(whole);
            block.add(HEADER)
        };
        Memory {
            ok: 1,
            at: at as u64,
        }
    }

    /// The block of memory that was given out, and its layout.
    ///
    /// # Safety
    ///
    /// `at` came from `with_header` and was not given back.
    unsafe fn block_of(at: *mut u8) -> (*mut u8, Layout) {
        // SAFETY: the header lies before `at`, and its size and alignment were those of a layout.
        unsafe {
            let block = at.sub(HEADER);
            let whole = block.cast::<usize>().read();
            (block, Layout::from_size_align_unchecked(whole, HEADER))
        }
    }

    #[no_mangle]
    extern "C" fn rattle_alloc(size: u64, align: u64) -> Memory {
        let Some(layout) = layout(size, align) else {
            return REFUSED;
        };
        // SAFETY: the layout has at least 16 bytes, and `alloc` gives memory of it or null.
        unsafe { with_header(alloc(layout), layout.size()) }
    }

    #[no_mangle]
    unsafe extern "C" fn rattle_realloc(at: *mut u8, _kept: u64, size: u64, align: u64) -> Memory {
        let Some(new) = layout(size, align) else {
            return REFUSED;
        };
        // SAFETY: the library gives memory that it has from `rattle_alloc` or `rattle_realloc`. The new size is that of a layout and
        // not 0. After a refusal the old block, with its header, stays. The bytes kept are at most those of both blocks.
        unsafe {
            let (block, old) = block_of(at);
            with_header(realloc(block, old, new.size()), new.size())
        }
    }

    #[no_mangle]
    unsafe extern "C" fn rattle_dealloc(at: *mut u8) {
        // SAFETY: the library gives memory that it has from `rattle_alloc` or `rattle_realloc`, once.
        unsafe {
            let (block, layout) = block_of(at);
            dealloc(block, layout);
        }
    }

    #[cfg(test)]
    mod tests {
        use super::*;

        #[test]
        fn memory_is_aligned_and_kept() {
            let first = rattle_alloc(3, 16);
            assert_eq!((first.ok, first.at % 16), (1, 0));
            let at = first.at as *mut u8;
            // SAFETY: the memory was just given out with 3 bytes, and then with 100,000.
            unsafe {
                at.copy_from(b"abc".as_ptr(), 3);
                let second = rattle_realloc(at, 3, 100_000, 16);
                assert_eq!((second.ok, second.at % 16), (1, 0));
                let at = second.at as *mut u8;
                assert_eq!(std::slice::from_raw_parts(at, 3), b"abc");
                rattle_dealloc(at);
            }
        }

        #[test]
        fn no_bytes_are_memory_too() {
            let none = rattle_alloc(0, 1);
            assert_eq!(none.ok, 1);
            // SAFETY: the memory was just given out.
            unsafe { rattle_dealloc(none.at as *mut u8) };
        }

        #[test]
        fn too_much_is_refused() {
            for (size, align) in [(u64::MAX, 1), (u64::MAX - 15, 16), (1 << 63, 8), (8, 32)] {
                let refused = rattle_alloc(size, align);
                assert_eq!((refused.ok, refused.at), (0, 0));
            }
            let first = rattle_alloc(8, 8);
            let at = first.at as *mut u8;
            // SAFETY: the memory was just given out, and stays so after the refusal.
            unsafe {
                assert_eq!(rattle_realloc(at, 8, u64::MAX, 8).ok, 0);
                rattle_dealloc(at);
            }
        }
    }
}
