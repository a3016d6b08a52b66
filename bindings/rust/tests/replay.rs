//! Replays the logs of `examples/` and compares the text with what the tests expect of the program (`tests/vt_replay/examples.run`).

use segyolant::{Error, Frame, Output, Outputs, Terminal, LATEST};
use std::fmt::Write;
use std::fs;
use std::path::PathBuf;

fn repository() -> PathBuf {
    PathBuf::from(env!("CARGO_MANIFEST_DIR")).join("../..")
}

fn read(path: &str) -> Vec<u8> {
    let path = repository().join(path);
    fs::read(&path).unwrap_or_else(|why| panic!("{}: {why}", path.display()))
}

/// What the program prints for these words: the lines of screens, frames and refusals.
fn printed(words: &str) -> String {
    let all = String::from_utf8(read("tests/vt_replay/examples.run")).expect("text");
    let mut lines = all.lines().skip_while(|line| *line != words).skip(1);
    let mut text = String::new();
    while let Some(line) = lines.next().and_then(|line| line.strip_prefix("| ")) {
        if line.starts_with("lines ") {
            return text;
        }
        text.push_str(line);
        text.push('\n');
    }
    panic!("no run with these words: {words}");
}

/// The frame and the time of a line such as `(1.000000) can0 14E72680#A0640000FFFFFFFF`.
fn frame_of(line: &str) -> Option<(u64, Frame)> {
    let mut words = line.split(' ');
    let time = words.next()?.strip_prefix('(')?.strip_suffix(')')?;
    let (seconds, micros) = time.split_once('.')?;
    let time = seconds.parse::<u64>().ok()? * 1_000_000 + micros.parse::<u64>().ok()?;
    let (id, data) = words.nth(1)?.split_once('#')?;
    let bytes: Option<Vec<u8>> = (0..data.len())
        .step_by(2)
        .map(|at| u8::from_str_radix(&data[at..at + 2], 16).ok())
        .collect();
    let id = u32::from_str_radix(id, 16).ok()?;
    Some((time, Frame::new(id, &bytes?).ok()?))
}

fn take<'a>(terminal: &'a mut Terminal, line: &str) -> Option<Result<Outputs<'a>, Error>> {
    let Some(words) = line.strip_prefix("! ") else {
        let (time, frame) = frame_of(line)?;
        return Some(terminal.hear(time, &frame));
    };
    let (action, rest) = words.split_once(' ')?;
    if action == "set" {
        return Some(terminal.set(LATEST, u8::from_str_radix(rest, 16).ok()?));
    }
    let (id, value) = rest.split_once(' ').unwrap_or((rest, ""));
    let id = id.parse().ok()?;
    Some(match action {
        "press" => terminal.press(LATEST, id),
        "release" => terminal.release(LATEST, id),
        "select" => terminal.select(LATEST, id),
        "number" => terminal.number(LATEST, id, value.parse().ok()?),
        "text" => terminal.text(LATEST, id, value.as_bytes()),
        _ => return None,
    })
}

fn replay(log: &str, terminal: &mut Terminal) -> String {
    let log = String::from_utf8(read(log)).expect("text");
    let mut screen = terminal.screen().expect("memory");
    let mut text = screen.clone();
    for line in log.lines().filter(|line| !line.starts_with('#')) {
        let outputs = take(terminal, line).unwrap_or_else(|| panic!("no input: {line}"));
        for output in outputs.expect("memory") {
            match output {
                Output::Frame(frame) => writeln!(text, "{frame}").unwrap(),
                Output::Refused(refusal) => {
                    writeln!(text, "operator {} {refusal:?}", refusal.number()).unwrap()
                }
                Output::Event(_) => {}
            }
        }
        let new = terminal.screen().expect("memory");
        assert!(terminal.redraws() || new == screen, "{line}");
        if new != screen {
            text.push_str(&new);
            screen = new;
        }
    }
    text
}

fn terminal() -> Terminal {
    Terminal::new(0x26, 0x2000_1D00_0000_0001).expect("a terminal")
}

#[test]
fn an_upload_and_keys() {
    let text = replay("examples/seeder.log", &mut terminal());
    assert_eq!(text, printed("$ vt_replay seeder.log"));
}

#[test]
fn a_preloaded_set_and_a_command() {
    let mut terminal = terminal();
    terminal
        .preload(0x80, &read("examples/pool.iop"))
        .expect("a pool");
    let text = replay("examples/hide.log", &mut terminal);
    assert_eq!(
        text,
        printed("$ vt_replay hide.log --pool pool.iop --owner 80")
    );
}

#[test]
fn inputs_and_a_set_that_falls_silent() {
    let mut terminal = terminal();
    terminal
        .preload(0x80, &read("examples/sprayer.iop"))
        .expect("a pool");
    let text = replay("examples/sprayer.log", &mut terminal);
    assert_eq!(
        text,
        printed("$ vt_replay sprayer.log --pool sprayer.iop --owner 80")
    );
}

#[test]
fn what_a_dialog_reads_and_when_to_paint() {
    let mut terminal = terminal();
    terminal
        .preload(0x80, &read("examples/sprayer.iop"))
        .expect("a pool");
    let limits = terminal.limits(0x80, 351).expect("memory");
    let limits = limits.expect("an input");
    assert!(limits.is_enabled);
    assert_eq!((limits.kind, limits.value), (9, 200));
    assert_eq!((limits.minimum, limits.maximum), (0, 500));
    assert_eq!(terminal.limits(0x80, 1000).expect("memory"), None);
    assert_eq!(terminal.raw(0x80, 351, "250.0"), Some(250));
    assert_eq!(terminal.raw(0x80, 351, "250.5"), None);

    let picture = terminal.picture(0x80, None).expect("memory");
    let (width, height) = terminal.picture_size(0x80, None).expect("a pool");
    let size = format!("width=\"{width}\" height=\"{height}\"");
    assert!(picture.expect("a pool")[..100].contains(&size));
    assert_eq!(terminal.picture_size(0x81, None), None);
    assert_eq!(terminal.raw(0x80, 351, "250."), None);

    let look = terminal.look();
    let claim = Frame::new(0x18EE_FF90, &[0x1D, 0, 0, 0, 0, 0, 0, 0x20]).expect("a frame");
    terminal.hear(1, &claim).expect("memory").for_each(drop);
    assert_eq!(terminal.look(), look);
    let (_, change) = frame_of("(0.000000) can0 14E72680#A85F01FFFA000000").expect("a frame");
    terminal.hear(2, &change).expect("memory").for_each(drop);
    assert_ne!(terminal.look(), look);
    assert_eq!(terminal.value_text(0x80, 351).expect("memory"), b"250");
}
