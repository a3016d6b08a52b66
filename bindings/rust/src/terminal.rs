use crate::raw::{other_version, status, Action, Handle};
use crate::set::NO_ID;
use crate::{Active, Element, Error, Frame, Limits, Outputs, Profile, Set};

/// As the time of an action: the latest time so far, as an operator's line in a log has it. Nothing times out for it.
pub const LATEST: u64 = u64::MAX;

/// An ISOBUS virtual terminal: its working sets, their object pools, and the screen of the shown set.
///
/// Each input returns its [`Outputs`], to be sent and shown at once. Times are in microseconds of one monotonic clock. Time never
/// goes back: an earlier time counts as the latest one.
///
/// A terminal may be moved to another thread, and is used by one at a time:
///
/// ```compile_fail
/// fn is_sync<T: Sync>() {}
/// is_sync::<segyolant::Terminal>();
/// ```
#[derive(Debug)]
pub struct Terminal {
    handle: Handle,
    own: u8,
}

impl Terminal {
    /// A terminal at an address up to 253, with its NAME (ISO 11783-5) and the standard profile. It sends nothing yet: see
    /// [`claim`](Terminal::claim). [`Error::OwnAddress`] for an address above 253.
    pub fn new(own: u8, name: u64) -> Result<Terminal, Error> {
        Terminal::with_profile(own, name, &Profile::default())
    }

    /// A terminal like that of [`new`](Terminal::new), with other answers to requests for its technical data.
    pub fn with_profile(own: u8, name: u64, profile: &Profile) -> Result<Terminal, Error> {
        if own > 253 {
            return Err(Error::OwnAddress(own));
        }
        if let Some(version) = other_version() {
            return Err(Error::OtherVersion(version));
        }
        match Handle::new(own, name, profile) {
            Some(handle) => Ok(Terminal { handle, own }),
            None => Err(Error::OutOfMemory),
        }
    }

    /// The terminal's own address. It stays the same after its loss.
    pub fn own(&self) -> u8 {
        self.own
    }

    /// Adds a working set with an object pool, without an upload. The bytes are not kept. [`Error::NotFree`] for an address above
    /// 253, the terminal's own, or one with a set; [`Error::NotAPool`] if the pool has a fault or breaks a rule.
    pub fn preload(&mut self, address: u8, pool: &[u8]) -> Result<(), Error> {
        match self.ready().preload(address, pool) {
            status::DONE => Ok(()),
            status::NO_MEMORY => Err(Error::OutOfMemory),
            status::NO_SUCH => Err(Error::NotFree(address)),
            status::NO_POOL => Err(Error::NotAPool),
            other => Err(Error::Unexpected(other)),
        }
    }

    // ---- inputs
    //
    // Each has its time, in microseconds of a monotonic clock. An action of the operator moves the time on first, as `tick` does, unless its
    // time is `LATEST`. After `Error::OutOfMemory` of an action the time may have moved on: `waiting` has what that brought.

    /// Hears a frame of the bus, with the time of its reception.
    pub fn hear(&mut self, time: u64, frame: &Frame) -> Result<Outputs<'_>, Error> {
        let count = frame.data().len() as u32;
        let status = self.ready().hear(time, frame.id(), count, frame.bits());
        self.outputs(status)
    }

    /// Moves the time on: silent transport sessions end (ISO 11783-3), and silent sets are closed (ISO 11783-6). A host calls it at
    /// the [`deadline`](Terminal::deadline), or some times a second.
    pub fn tick(&mut self, time: u64) -> Result<Outputs<'_>, Error> {
        let status = self.ready().tick(time);
        self.outputs(status)
    }

    /// The operator presses a soft key or a button (ISO 11783-6, Soft Key Activation, Button Activation).
    pub fn press(&mut self, time: u64, id: u16) -> Result<Outputs<'_>, Error> {
        self.act(time, Action::Press, id, 0)
    }

    /// The operator releases the key or button held.
    pub fn release(&mut self, time: u64, id: u16) -> Result<Outputs<'_>, Error> {
        self.act(time, Action::Release, id, 0)
    }

    /// The operator selects an input. No message is sent.
    pub fn select(&mut self, time: u64, id: u16) -> Result<Outputs<'_>, Error> {
        self.act(time, Action::Select, id, 0)
    }

    /// The operator enters a number: the raw value, without offset and scale (ISO 11783-6, VT Change Numeric Value).
    pub fn number(&mut self, time: u64, id: u16, value: u32) -> Result<Outputs<'_>, Error> {
        self.act(time, Action::Number, id, value)
    }

    /// The operator enters a text, one byte a character (ISO 11783-6, VT Change String Value). The bytes are not kept.
    pub fn text(&mut self, time: u64, id: u16, text: &[u8]) -> Result<Outputs<'_>, Error> {
        let status = self.ready().text(time, id, text);
        self.outputs(status)
    }

    /// The operator chooses the working set at an address. While an alarm of another set is shown, that stays shown.
    pub fn set(&mut self, time: u64, address: u8) -> Result<Outputs<'_>, Error> {
        self.act(time, Action::Set, 0, u32::from(address))
    }

    /// The outputs that wait after [`Error::OutOfMemory`] of an action: those that its time brought. The next input drops them.
    pub fn waiting(&mut self) -> Outputs<'_> {
        Outputs::new(&mut self.handle)
    }

    // ---- what a host sends by itself

    /// The address claim, to be sent at the start (ISO 11783-5). The first other frame goes out 250 ms after it. A lost terminal has
    /// no output.
    pub fn claim(&mut self) -> Result<Outputs<'_>, Error> {
        let status = self.ready().claim();
        self.outputs(status)
    }

    /// The status message, to be sent once a second (ISO 11783-6, VT Status). A lost terminal has no output.
    pub fn status(&mut self) -> Result<Outputs<'_>, Error> {
        let status = self.ready().status();
        self.outputs(status)
    }

    // ---- the screen

    /// A number that is another one after each call that may have changed the picture of the shown set, its colours and fonts among it.
    /// While it stays, [`picture`](Terminal::picture) and [`elements`](Terminal::elements) give the same of the shown set.
    pub fn look(&self) -> u64 {
        self.handle.look()
    }

    /// Whether the text of the screen may differ from the one before the last input. A host asks after each input. One that paints masks
    /// asks [`look`](Terminal::look).
    pub fn redraws(&self) -> bool {
        self.handle.redraws()
    }

    /// The screen of the shown set as text in ASCII (docs/PROFILE.md, "Form of the text"). The only error is
    /// [`Error::OutOfMemory`].
    pub fn screen(&mut self) -> Result<String, Error> {
        let count = self.handle.screen();
        self.written(count).map(text_of)
    }

    // ---- reading the state

    /// The working sets in the order in which they registered. The only error is [`Error::OutOfMemory`].
    pub fn sets(&mut self) -> Result<Vec<Set>, Error> {
        let count = self.handle.sets();
        rows(&self.written(count)?, 16, Set::from_bytes)
    }

    /// What is active in the set at an address, or `None` if there is no set with a pool.
    pub fn active(&mut self, address: u8) -> Option<Active> {
        let has_pool = self.handle.has_pool(address);
        has_pool.then(|| Active::from_ids(self.handle.active(address)))
    }

    /// The record of an object of the set at an address, as it is now, in the layout of object pools (ISO 11783-6), or `None` if there
    /// is no such object. The only error is [`Error::OutOfMemory`].
    pub fn object(&mut self, address: u8, id: u16) -> Result<Option<Vec<u8>>, Error> {
        let count = self.handle.object(address, id);
        Ok(Some(self.written(count)?).filter(|record| !record.is_empty()))
    }

    /// A mask of the set at an address as SVG, with its soft keys to its right, or the active mask for `None`. `None` if there is no
    /// set with a pool. The only error is [`Error::OutOfMemory`].
    pub fn picture(&mut self, address: u8, mask: Option<u16>) -> Result<Option<String>, Error> {
        let count = self.handle.picture(address, mask.unwrap_or(NO_ID));
        Ok(Some(text_of(self.written(count)?)).filter(|picture| !picture.is_empty()))
    }

    /// An object of the set at an address by itself as SVG, as an item of a list, the label of a key, or a Working Set with its designator.
    /// `None` if there is no such object. The only error is [`Error::OutOfMemory`].
    pub fn part(&mut self, address: u8, id: u16) -> Result<Option<String>, Error> {
        let count = self.handle.part(address, id);
        Ok(Some(text_of(self.written(count)?)).filter(|part| !part.is_empty()))
    }

    /// The width and the height of what [`picture`](Terminal::picture) draws, in pixels. `None` if there is no set with a pool.
    pub fn picture_size(&mut self, address: u8, mask: Option<u16>) -> Option<(u32, u32)> {
        let size = self.handle.picture_size(address, mask.unwrap_or(NO_ID));
        let has_pool = self.handle.has_pool(address);
        has_pool.then_some((size as u32, (size >> 32) as u32))
    }

    /// The elements that the shown mask and its soft keys show, in the order in which they are drawn; of a longer drawing the first
    /// 2,000. The only error is [`Error::OutOfMemory`].
    pub fn elements(&mut self) -> Result<Vec<Element>, Error> {
        let count = self.handle.elements();
        rows(&self.written(count)?, 40, Element::from_bytes)
    }

    /// The key, button or input that is shown at a place, in pixels from the upper left corner of the mask: of several the one drawn
    /// last. The only error is [`Error::OutOfMemory`].
    pub fn touch(&mut self, x: i32, y: i32) -> Result<Option<u16>, Error> {
        let id = self.handle.touch(x as u32, y as u32);
        let id = u16::try_from(id).map_err(|_| Error::OutOfMemory)?;
        Ok(Some(id).filter(|id| *id != NO_ID))
    }

    // ---- dialogs

    /// What an input of the set at an address accepts, and how its number is shown, or `None` if there is no such input. The only error
    /// is [`Error::OutOfMemory`].
    pub fn limits(&mut self, address: u8, id: u16) -> Result<Option<Limits>, Error> {
        let count = self.handle.limits(address, id);
        Ok(Limits::from_bytes(&self.written(count)?))
    }

    /// The text of an input or output field of the set at an address, as the terminal shows it: a number with its offset, scale and
    /// decimals, or the whole text of a string in the bytes of its font. Empty for another object. The only error is
    /// [`Error::OutOfMemory`].
    pub fn value_text(&mut self, address: u8, id: u16) -> Result<Vec<u8>, Error> {
        let count = self.handle.value_text(address, id);
        self.written(count)
    }

    /// The raw value, for [`number`](Terminal::number), of what the operator typed for an Input Number of the set at an address,
    /// exactly: an optional minus, digits, and perhaps a point and more digits, 15 digits at most with leading zeros. `None` if there is no such value of
    /// 32 bits; it may still be outside the limits.
    pub fn raw(&self, address: u8, id: u16, typed: &str) -> Option<u32> {
        let (is_negative, rest) = match typed.strip_prefix('-') {
            Some(rest) => (true, rest),
            None => (false, typed),
        };
        let (whole, behind) = rest.split_once('.').unwrap_or((rest, ""));
        let digits = format!("{whole}{behind}");
        let has_point = rest.contains('.');
        let is_number = !whole.is_empty()
            && has_point != behind.is_empty()
            && digits.bytes().all(|byte| byte.is_ascii_digit());
        if !is_number || digits.len() > 15 {
            return None;
        }
        let decimals = behind.len() as u32;
        let raw = self
            .handle
            .raw(address, id, is_negative, digits.parse().ok()?, decimals);
        u32::try_from(raw).ok()
    }

    // ---- words

    /// What a frame says in words, for a log window, as `80 to 26: Hide/Show Object: Container 100, hide`: addresses in hexadecimal, IDs in
    /// decimal. The objects are named as the terminal has them now: tell a frame before it is heard, or when it comes as an output. The only
    /// error is [`Error::OutOfMemory`].
    pub fn words(&mut self, frame: &Frame) -> Result<String, Error> {
        let count = frame.data().len() as u32;
        let count = self.handle.words(frame.id(), count, frame.bits());
        self.written(count).map(text_of)
    }

    // ---- what a host asks

    /// The address of the shown working set, if one is shown.
    pub fn shown(&self) -> Option<u8> {
        u8::try_from(self.handle.shown())
            .ok()
            .filter(|address| *address <= 253)
    }

    /// Whether a node with a lower NAME took the terminal's address (ISO 11783-5). A lost terminal sends nothing any more: a host
    /// makes another one at another address.
    pub fn lost(&self) -> bool {
        self.handle.lost()
    }

    /// The first time, in microseconds, at which a [`tick`](Terminal::tick) is due, or `None` if there is no such time. Before it a
    /// tick does nothing but move the time on. A time that is not after the latest one means: at once.
    pub fn deadline(&self) -> Option<u64> {
        Some(self.handle.deadline()).filter(|time| *time != u64::MAX)
    }

    // ----

    fn act(
        &mut self,
        time: u64,
        action: Action,
        id: u16,
        number: u32,
    ) -> Result<Outputs<'_>, Error> {
        let status = self.ready().act(time, action, id, number);
        self.outputs(status)
    }

    // The text written last, of this many bytes.
    fn written(&self, count: u64) -> Result<Vec<u8>, Error> {
        let room = usize::try_from(count).map_err(|_| Error::OutOfMemory)?;
        let mut bytes = Vec::new();
        bytes
            .try_reserve_exact(room)
            .map_err(|_| Error::OutOfMemory)?;
        for index in (0..count).step_by(8) {
            let word = self.handle.screen_word(index).to_le_bytes();
            let left = (count - index).min(8) as usize;
            bytes.extend_from_slice(&word[..left]);
        }
        Ok(bytes)
    }

    // The handle, of which no output waits. One may wait only where `Outputs` were forgotten (`std::mem::forget`).
    fn ready(&mut self) -> &mut Handle {
        self.handle.discard();
        &mut self.handle
    }

    fn outputs(&mut self, status: u32) -> Result<Outputs<'_>, Error> {
        match status {
            status::DONE => Ok(Outputs::new(&mut self.handle)),
            status::NO_MEMORY => Err(Error::OutOfMemory),
            other => Err(Error::Unexpected(other)),
        }
    }
}

// The rows of a list, each of this many bytes.
fn rows<T>(bytes: &[u8], size: usize, row: impl Fn(&[u8]) -> T) -> Result<Vec<T>, Error> {
    let mut all = Vec::new();
    all.try_reserve_exact(bytes.len() / size)
        .map_err(|_| Error::OutOfMemory)?;
    all.extend(bytes.chunks_exact(size).map(row));
    Ok(all)
}

// A text of one byte a character. One in ASCII, as all texts of the library are, is not copied.
fn text_of(bytes: Vec<u8>) -> String {
    String::from_utf8(bytes)
        .unwrap_or_else(|error| error.into_bytes().into_iter().map(char::from).collect())
}

#[cfg(test)]
mod tests {
    use super::*;
    use crate::{Event, Output, Refusal};

    const NAME: u64 = 0x2000_1D00_0000_0001;

    fn pool() -> Vec<u8> {
        let path = concat!(env!("CARGO_MANIFEST_DIR"), "/../../examples/pool.iop");
        std::fs::read(path).expect("examples/pool.iop")
    }

    fn terminal() -> Terminal {
        Terminal::new(0x26, NAME).expect("a terminal")
    }

    /// The frames and refusals.
    fn all(outputs: Result<Outputs<'_>, Error>) -> Vec<Output> {
        let sent = |output: &Output| !matches!(output, Output::Event(_));
        outputs.expect("memory").filter(sent).collect()
    }

    fn events(outputs: Result<Outputs<'_>, Error>) -> Vec<Event> {
        let told = |output| match output {
            Output::Event(event) => Some(event),
            _ => None,
        };
        outputs.expect("memory").filter_map(told).collect()
    }

    #[test]
    fn an_address_above_253_is_refused() {
        for own in [254, 255] {
            let refused = Terminal::new(own, NAME).expect_err("no terminal");
            assert_eq!(refused, Error::OwnAddress(own));
            assert!(refused.to_string().contains("up to 253"));
        }
        assert!(Terminal::new(253, NAME).is_ok());
    }

    #[test]
    fn it_claims_and_tells_its_status() {
        let mut terminal = terminal();
        let claim = all(terminal.claim());
        assert_eq!(
            claim,
            [Output::Frame(
                Frame::new(0x18EE_FF26, &NAME.to_le_bytes()).unwrap()
            )]
        );
        let status = all(terminal.status());
        let data = [0xFE, 0xFE, 0xFF, 0xFF, 0xFF, 0xFF, 0x00, 0xFF];
        assert_eq!(
            status,
            [Output::Frame(Frame::new(0x14E6_FF26, &data).unwrap())]
        );
    }

    #[test]
    fn a_pool_is_preloaded_once() {
        let mut terminal = terminal();
        assert_eq!(terminal.preload(0x80, b""), Err(Error::NotAPool));
        assert_eq!(terminal.preload(0x26, &pool()), Err(Error::NotFree(0x26)));
        assert_eq!(terminal.preload(254, &pool()), Err(Error::NotFree(254)));
        assert_eq!(terminal.shown(), None);
        assert_eq!(terminal.preload(0x80, &pool()), Ok(()));
        assert_eq!(terminal.preload(0x80, &pool()), Err(Error::NotFree(0x80)));
        assert_eq!(terminal.shown(), Some(0x80));
        assert!(terminal.redraws());
        assert_eq!(
            terminal.screen().unwrap(),
            "screen 80 mask 1000\ncontainer 100 10 5 50x20\n"
        );
    }

    #[test]
    fn the_state_is_read() {
        let mut terminal = terminal();
        assert_eq!(terminal.sets(), Ok(vec![]));
        assert_eq!(terminal.active(0x80), None);
        assert_eq!(terminal.object(0x80, 0), Ok(None));
        assert_eq!(terminal.picture(0x80, None), Ok(None));
        terminal.preload(0x80, &pool()).unwrap();
        let set = Set {
            address: 0x80,
            name: None,
            has_pool: true,
            is_shown: true,
        };
        assert_eq!(terminal.sets(), Ok(vec![set]));
        let active = terminal.active(0x80).expect("a set with a pool");
        assert_eq!((active.mask, active.key), (Some(1000), None));
        let container = pool()[24..34].to_vec();
        assert_eq!(terminal.object(0x80, 100), Ok(Some(container)));
        assert_eq!(terminal.object(0x80, 101), Ok(None));
        let picture = terminal.picture(0x80, None).unwrap().expect("a picture");
        assert!(picture.starts_with("<svg ") && picture.contains(r#"data-id="100""#));
        assert_eq!(terminal.picture(0x80, Some(1000)), Ok(Some(picture)));
        let part = terminal.part(0x80, 100).unwrap().expect("a container");
        assert!(part.contains(r#"width="50" height="20""#));
        assert!(part.contains(r#"data-id="100" x="0" y="0""#));
        assert_eq!(terminal.part(0x80, 101), Ok(None));
        assert_eq!(terminal.part(0x81, 100), Ok(None));
        let elements = terminal.elements().unwrap();
        let places: Vec<_> = elements.iter().map(|e| (e.id, e.kind, e.x, e.y)).collect();
        assert_eq!(places, [(100, 3, 10, 5)]);
        assert_eq!((elements[0].width, elements[0].height), (50, 20));
        assert_eq!(elements[0].around, None);
        // A container is nothing to touch.
        assert_eq!(terminal.touch(20, 10), Ok(None));
        assert_eq!(terminal.touch(-1, 10), Ok(None));
    }

    #[test]
    fn frames_are_told_in_words() {
        let mut terminal = terminal();
        let hide = Frame::new(0x14E7_2680, &[0xA0, 100, 0, 0, 0xFF, 0xFF, 0xFF, 0xFF]).unwrap();
        let words = "80 to 26: Hide/Show Object: object 100, hide";
        assert_eq!(terminal.words(&hide).unwrap(), words);
        terminal.preload(0x80, &pool()).unwrap();
        let words = "80 to 26: Hide/Show Object: Container 100, hide";
        assert_eq!(terminal.words(&hide).unwrap(), words);
        match all(terminal.hear(1, &hide))[..] {
            [Output::Frame(answer)] => assert_eq!(
                terminal.words(&answer).unwrap(),
                "26 to 80: Hide/Show Object: done"
            ),
            ref other => panic!("{other:?}"),
        }
        let empty = Frame::new(0x18FF_FF80, &[]).unwrap();
        assert!(terminal.words(&empty).unwrap().starts_with("80 to all: "));
    }

    #[test]
    fn refused_actions_come_as_outputs() {
        let mut terminal = terminal();
        let refused = |refusal| [Output::Refused(refusal)];
        assert_eq!(all(terminal.press(LATEST, 1)), refused(Refusal::NoSet));
        terminal.preload(0x80, &pool()).unwrap();
        assert_eq!(all(terminal.press(LATEST, 1)), refused(Refusal::NotShown));
        assert_eq!(all(terminal.release(LATEST, 1)), refused(Refusal::NotPressed));
        assert_eq!(all(terminal.select(LATEST, 100)), refused(Refusal::WrongKind));
        assert_eq!(all(terminal.number(LATEST, 100, 7)), refused(Refusal::WrongKind));
        assert_eq!(all(terminal.text(LATEST, 100, b"")), refused(Refusal::WrongKind));
        assert_eq!(all(terminal.set(LATEST, 0x81)), refused(Refusal::NoSet));
        assert_eq!(all(terminal.set(LATEST, 0x80)), []);
    }

    #[test]
    fn a_silent_set_is_closed_at_the_deadline() {
        let mut terminal = terminal();
        assert_eq!(terminal.deadline(), None);
        terminal.preload(0x80, &pool()).unwrap();
        // The silence of a preloaded set begins with the next time that is told.
        assert_eq!(terminal.deadline(), Some(0));
        assert_eq!(all(terminal.tick(500)), []);
        assert_eq!(terminal.deadline(), Some(3_000_501));
        assert_eq!(all(terminal.tick(3_000_500)), []);
        assert_eq!(terminal.shown(), Some(0x80));
        assert_eq!(all(terminal.tick(3_000_501)).len(), 1);
        assert_eq!(terminal.shown(), None);
        assert_eq!(terminal.deadline(), None);
    }

    #[test]
    fn events_are_told() {
        let mut terminal = terminal();
        terminal.preload(0x80, &pool()).unwrap();
        assert_eq!(events(terminal.tick(500)), []);
        let nothing = Event::Shown {
            address: None,
            mask: None,
            soft_keys: None,
        };
        assert_eq!(
            events(terminal.tick(3_000_501)),
            [Event::SetSilent { address: 0x80 }, nothing]
        );
        let claim = Frame::new(0x18EE_FF80, &[2; 8]).unwrap();
        let master = Frame::new(0x1CFE_0D80, &[1; 8]).unwrap();
        assert_eq!(events(terminal.hear(3_000_600, &claim)), []);
        assert_eq!(
            events(terminal.hear(3_000_700, &master)),
            [Event::SetCame { address: 0x80 }]
        );
        let end = Frame::new(0x14E7_2680, &[0x12, 0xFF, 0xFF, 0xFF, 0xFF, 0xFF, 0xFF, 0xFF]).unwrap();
        assert_eq!(
            events(terminal.hear(3_000_800, &end)),
            [Event::PoolRefused {
                address: 0x80,
                rule: 1,
                at: 0,
                object: None,
                other: None,
            }]
        );
        let lower = Frame::new(0x18EE_FF26, &[0; 8]).unwrap();
        assert_eq!(
            events(terminal.hear(3_000_900, &lower)),
            [Event::AddressLost { address: 0x26 }]
        );
        assert_eq!(events(terminal.hear(4_000_900, &lower)), []);
    }

    #[test]
    fn a_lost_terminal_is_silent() {
        let mut terminal = terminal();
        let claim = Frame::new(0x18EE_FF26, &[0; 8]).unwrap();
        assert_eq!(all(terminal.hear(1, &claim)).len(), 1);
        assert!(terminal.lost());
        assert_eq!(all(terminal.status()), []);
        assert_eq!(all(terminal.claim()), []);
        assert_eq!(all(terminal.press(LATEST, 1)), []);
        assert_eq!(terminal.own(), 0x26);
    }

    #[test]
    fn the_profile_is_answered() {
        let profile = Profile {
            soft_key_width: 1,
            soft_key_height: 2,
            virtual_soft_keys: 3,
            physical_soft_keys: 4,
            small_fonts: 5,
            large_fonts: 6,
            font_styles: 7,
            boot_time: 8,
            graphic_type: 9,
            hardware: 10,
            width: 0x0B0C,
            height: 0x0D0E,
            memory: 100,
        };
        let mut terminal = Terminal::with_profile(0x26, NAME, &profile).unwrap();
        terminal.preload(0x80, &pool()).unwrap();
        let mut ask = |data: [u8; 8]| {
            let request = Frame::new(0x14E7_2680, &data).unwrap();
            match all(terminal.hear(1, &request))[..] {
                [Output::Frame(frame)] => frame.data().to_vec(),
                ref other => panic!("{other:?}"),
            }
        };
        let keys = ask([0xC2, 0xFF, 0xFF, 0xFF, 0xFF, 0xFF, 0xFF, 0xFF]);
        assert_eq!(keys[4..], [1, 2, 3, 4]);
        let fonts = ask([0xC3, 0xFF, 0xFF, 0xFF, 0xFF, 0xFF, 0xFF, 0xFF]);
        assert_eq!(fonts[5..], [5, 6, 7]);
        let hardware = ask([0xC7, 0xFF, 0xFF, 0xFF, 0xFF, 0xFF, 0xFF, 0xFF]);
        assert_eq!(hardware[1..], [8, 9, 10, 0x0C, 0x0B, 0x0E, 0x0D]);
        let enough = ask([0xC0, 0xFF, 100, 0, 0, 0, 0xFF, 0xFF]);
        let too_much = ask([0xC0, 0xFF, 101, 0, 0, 0, 0xFF, 0xFF]);
        assert_eq!((enough[2], too_much[2]), (0, 1));
    }

    #[test]
    fn outputs_that_are_not_taken_are_lost() {
        let mut terminal = terminal();
        drop(terminal.claim());
        std::mem::forget(terminal.claim());
        assert_eq!(all(terminal.status()).len(), 1);
    }

    #[test]
    fn a_terminal_moves_to_another_thread() {
        let mut terminal = terminal();
        terminal.preload(0x80, &pool()).unwrap();
        let shown = std::thread::spawn(move || terminal.shown()).join();
        assert_eq!(shown.unwrap(), Some(0x80));
    }
}
