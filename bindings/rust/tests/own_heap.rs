//! A program that gives the library memory of its own, and refuses each request in turn:
//!
//!     cargo test --no-default-features --test own_heap
#![cfg(not(feature = "heap"))]

use segyolant::{Error, Frame, Output, Outputs, Terminal};
use std::alloc::{alloc, dealloc, Layout};
use std::sync::atomic::{AtomicU64, Ordering::SeqCst};

#[repr(C)]
pub struct Memory {
    ok: u64,
    at: u64,
}

const REFUSED: Memory = Memory { ok: 0, at: 0 };

/// The requests so far, and the number of the one that is refused (0 for none).
static REQUESTS: AtomicU64 = AtomicU64::new(0);
static REFUSE: AtomicU64 = AtomicU64::new(0);
/// The blocks that are given out.
static BLOCKS: AtomicU64 = AtomicU64::new(0);

fn layout(size: u64) -> Layout {
    Layout::from_size_align(size as usize + 16, 16).expect("a size")
}

#[no_mangle]
pub extern "C" fn rattle_alloc(size: u64, _align: u64) -> Memory {
    if REQUESTS.fetch_add(1, SeqCst) + 1 == REFUSE.load(SeqCst) {
        return REFUSED;
    }
    BLOCKS.fetch_add(1, SeqCst);
    // SAFETY: the layout has at least 16 bytes, and the size is kept in them.
    let at = unsafe {
        let block = alloc(layout(size));
        assert!(!block.is_null());
        block.cast::<u64>().write(size);
        block.add(16)
    };
    Memory {
        ok: 1,
        at: at as u64,
    }
}

/// # Safety
///
/// `at` came from these functions, with at least `kept` bytes.
#[no_mangle]
pub unsafe extern "C" fn rattle_realloc(at: *mut u8, kept: u64, size: u64, align: u64) -> Memory {
    let new = rattle_alloc(size, align);
    if new.ok == 1 {
        // SAFETY: both blocks have at least `kept` bytes, and the old one is given back once.
        unsafe {
            (new.at as *mut u8).copy_from_nonoverlapping(at, kept as usize);
            rattle_dealloc(at);
        }
    }
    new
}

/// # Safety
///
/// `at` came from these functions, and is given back once.
#[no_mangle]
pub unsafe extern "C" fn rattle_dealloc(at: *mut u8) {
    BLOCKS.fetch_sub(1, SeqCst);
    // SAFETY: the size stands 16 bytes before.
    unsafe {
        let block = at.sub(16);
        let size = block.cast::<u64>().read();
        dealloc(block, layout(size));
    }
}

fn frames() -> Vec<Frame> {
    let pool = include_bytes!("../../../examples/pool.iop");
    let frame = |id, data: &[u8]| Frame::new(id, data).expect("a frame");
    let mut frames = vec![
        frame(0x18EE_FF80, &[0x02, 0, 0, 0, 0, 0x1D, 0, 0x20]),
        frame(0x1CFE_0D80, &[1, 0xFF, 0xFF, 0xFF, 0xFF, 0xFF, 0xFF, 0xFF]),
    ];
    for piece in pool.chunks(7) {
        let mut data = vec![0x11];
        data.extend_from_slice(piece);
        frames.push(frame(0x14E7_2680, &data));
    }
    frames.push(frame(
        0x14E7_2680,
        &[0x12, 0xFF, 0xFF, 0xFF, 0xFF, 0xFF, 0xFF, 0xFF],
    ));
    frames.push(frame(
        0x14E7_2680,
        &[0xA0, 0x64, 0, 0, 0xFF, 0xFF, 0xFF, 0xFF],
    ));
    frames
}

/// Makes a call again after a refusal, as a host does.
fn again(
    terminal: &mut Terminal,
    call: impl Fn(&mut Terminal) -> Result<Outputs<'_>, Error>,
) -> (Vec<Output>, u64) {
    let mut refusals = 0;
    loop {
        match call(terminal) {
            Ok(outputs) => return (outputs.collect(), refusals),
            Err(why) => assert_eq!(why, Error::OutOfMemory),
        }
        refusals += 1;
    }
}

/// The outputs and the last screen of an upload and a command, with one request refused, and the number of calls made again.
fn run(refuse: u64) -> (Vec<Output>, String, u64) {
    REQUESTS.store(0, SeqCst);
    REFUSE.store(refuse, SeqCst);
    let mut terminal = Terminal::new(0x26, 0x2000_1D00_0000_0001).expect("a terminal");
    let (mut outputs, mut refusals) = again(&mut terminal, |terminal| terminal.claim());
    let mut screen = String::new();
    for (at, frame) in frames().iter().enumerate() {
        let (more, refused) = again(&mut terminal, |terminal| {
            terminal.hear(1_000 * at as u64, frame)
        });
        outputs.extend(more);
        refusals += refused;
        while let Err(why) = terminal.screen().map(|text| screen = text) {
            assert_eq!(why, Error::OutOfMemory);
            refusals += 1;
        }
    }
    (outputs, screen, refusals)
}

#[test]
fn a_refusal_changes_nothing() {
    let (outputs, screen, refusals) = run(0);
    assert_eq!((screen.as_str(), refusals), ("screen 80 mask 1000\n", 0));
    assert_eq!(BLOCKS.load(SeqCst), 0);
    let requests = REQUESTS.load(SeqCst);
    assert!(requests > 10);
    for refuse in 1..=requests {
        assert_eq!(
            run(refuse),
            (outputs.clone(), screen.clone(), 1),
            "{refuse}"
        );
        assert_eq!(BLOCKS.load(SeqCst), 0, "{refuse}");
    }
}
