//! A terminal in Rust, from its claim to its first screen: a working set at address 128 uploads `examples/pool.iop`.
//!
//!     cargo run --example first
//!
//! The frames stand here in place of a bus. The status is 0 only if the screen is as expected.

use segyolant::{Frame, Output, Outputs, Terminal};
use std::error::Error;

const OWN: u8 = 0x26;
const NAME: u64 = 0x2000_1D00_0000_0001;
const POOL: &[u8] = include_bytes!("../../../examples/pool.iop");

/// A message of the working set to the terminal (ISO 11783-6, ECU to VT).
fn message(data: &[u8]) -> Result<Frame, segyolant::Error> {
    Frame::new(0x14E7_2680, data)
}

/// Prints the outputs. A program on a bus sends the frames instead.
fn print(outputs: Outputs<'_>) {
    for output in outputs {
        match output {
            Output::Frame(frame) => println!("{frame}"),
            Output::Refused(refusal) => println!("operator: {refusal}"),
            Output::Event(_) => {}
        }
    }
}

fn main() -> Result<(), Box<dyn Error>> {
    let mut terminal = Terminal::new(OWN, NAME)?;
    print(terminal.claim()?);

    // The working set claims its address (ISO 11783-5) and registers (ISO 11783-6, Working Set Master).
    let mut frames = vec![
        Frame::new(0x18EE_FF80, &[0x02, 0, 0, 0, 0, 0x1D, 0, 0x20])?,
        Frame::new(
            0x1CFE_0D80,
            &[0x01, 0xFF, 0xFF, 0xFF, 0xFF, 0xFF, 0xFF, 0xFF],
        )?,
    ];
    // It uploads its pool, up to seven bytes a frame (Object Pool Transfer), and ends the upload (End of Object Pool).
    for piece in POOL.chunks(7) {
        let mut data = vec![0x11];
        data.extend_from_slice(piece);
        frames.push(message(&data)?);
    }
    frames.push(message(&[0x12, 0xFF, 0xFF, 0xFF, 0xFF, 0xFF, 0xFF, 0xFF])?);

    let mut time = 1_000_000;
    for frame in &frames {
        time += 10_000;
        print(terminal.hear(time, frame)?);
    }
    let screen = terminal.screen()?;
    print!("{screen}");
    if screen != "screen 80 mask 1000\ncontainer 100 10 5 50x20\n" {
        return Err("the screen is not the one of examples/pool.iop".into());
    }

    // Without a frame for more than three seconds the set is closed. The tick at the deadline does it.
    let deadline = terminal.deadline().ok_or("there is no deadline")?;
    println!("silent until {deadline}");
    print(terminal.tick(deadline)?);
    print!("{}", terminal.screen()?);
    match terminal.shown() {
        None => Ok(()),
        Some(_) => Err("the silent set is still shown".into()),
    }
}
