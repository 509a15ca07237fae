//! The program `callsheet` once more, in plain Rust, written from the docs alone for comparison.
//!
//!     rustc --edition 2021 -C opt-level=3 -o callsheet second/callsheet.rs
//!
//! Without arguments it reads a call sheet of standard input, runs it, and prints what it prints
//! (docs/SHEETS.md). With arguments it runs one of three loops for measuring speed, and prints
//! one line:
//!
//!     callsheet calls ROUNDS           calls C sum S word W told T
//!     callsheet frames ROUNDS          frames F sum S
//!     callsheet requests LOADS ROUNDS  requests R sum S told T
//!
//! - `calls`: on a link with 2 repeats over a book of 4,096 readings, a message of three loads in
//!   each round, all delivered, which is 17 calls. S is the sum of all values told and of all
//!   answer numbers, in 32 bits; W and T are the outcome.
//! - `frames`: in each round writes 1,024 frames of pieces and 1,024 of readings, and then reads
//!   them all. S is the sum of what the loads read have, in 64 bits.
//! - `requests`: on such a link over a book of LOADS readings, 1 to 4,096 of them, each round
//!   requests one load from some place, and either delivers it and confirms, or abandons,
//!   confirms, parts and meets. Which of them, and the place, come of numbers that look random. S
//!   is the sum of all values told, answer numbers and words (OK 0, NOT_OK 1, DONT_KNOW 2), in 32
//!   bits; T is of the outcome.
//!
//! Reading i of such a book has the value i * 2654435761 in 32 bits. Where there is no outcome,
//! since there was no round, `refused 13` stands in its place. Other arguments end it with 2.

use std::env;
use std::io::{self, Read, Write};
use std::process::ExitCode;

/// Loads, frames, their octets, and books of loads.
mod loads {
    /// The most octets that a frame of any kind has.
    pub const FRAME_OCTETS: usize = 32;

    /// Why octets or fields are no load or frame, with the number of each.
    #[derive(Clone, Copy, Debug, PartialEq, Eq)]
    pub enum Fault {
        Octets = 14,
        Kind = 15,
        Range = 16,
    }

    impl Fault {
        pub fn number(self) -> u32 {
            self as u32
        }
    }

    /// A kind of load: its number, how many octets it has, and how they are read and written.
    pub trait Load: Copy {
        const KIND: u8;
        const SIZE: usize;

        /// The load that exactly these octets spell.
        fn read(octets: &[u8]) -> Result<Self, Fault>;

        /// Writes the load to the front of the buffer. A refused write leaves it as it was.
        fn write(self, buffer: &mut [u8]) -> Result<(), Fault>;
    }

    /// What replies carry.
    #[derive(Clone, Copy, Debug, PartialEq, Eq)]
    pub struct EmptyLoad;

    impl Load for EmptyLoad {
        const KIND: u8 = 0;
        const SIZE: usize = 0;

        fn read(octets: &[u8]) -> Result<Self, Fault> {
            if octets.is_empty() {
                Ok(EmptyLoad)
            } else {
                Err(Fault::Octets)
            }
        }

        fn write(self, _buffer: &mut [u8]) -> Result<(), Fault> {
            Ok(())
        }
    }

    #[derive(Clone, Copy, Debug, PartialEq, Eq)]
    pub struct Reading {
        value: u32,
    }

    impl Reading {
        pub fn new(value: u32) -> Self {
            Reading { value }
        }

        pub fn value(self) -> u32 {
            self.value
        }
    }

    impl Load for Reading {
        const KIND: u8 = 1;
        const SIZE: usize = 4;

        fn read(octets: &[u8]) -> Result<Self, Fault> {
            let octets = octets.try_into().map_err(|_| Fault::Octets)?;
            Ok(Reading::new(u32::from_be_bytes(octets)))
        }

        fn write(self, buffer: &mut [u8]) -> Result<(), Fault> {
            let front = buffer.first_chunk_mut().ok_or(Fault::Octets)?;
            *front = self.value.to_be_bytes();
            Ok(())
        }
    }

    /// A piece of a map tile. `new` is the only way to one, so its ranges always hold.
    #[derive(Clone, Copy, Debug, PartialEq, Eq)]
    pub struct Piece {
        zoom: u8,
        column: u32,
        row: u32,
        number: u16,
        body: u64,
    }

    impl Piece {
        const HIGHEST_ZOOM: u8 = 20;

        pub fn new(zoom: u8, column: u32, row: u32, number: u16, body: u64) -> Result<Self, Fault> {
            if zoom > Self::HIGHEST_ZOOM || (column | row) >> zoom != 0 {
                return Err(Fault::Range);
            }
            Ok(Piece {
                zoom,
                column,
                row,
                number,
                body,
            })
        }

        pub fn column(self) -> u32 {
            self.column
        }

        pub fn row(self) -> u32 {
            self.row
        }

        pub fn number(self) -> u16 {
            self.number
        }

        pub fn body(self) -> u64 {
            self.body
        }
    }

    impl Load for Piece {
        const KIND: u8 = 2;
        const SIZE: usize = 19;

        fn read(octets: &[u8]) -> Result<Self, Fault> {
            let octets: &[u8; Self::SIZE] = octets.try_into().map_err(|_| Fault::Octets)?;
            let [zoom, c0, c1, c2, c3, r0, r1, r2, r3, n0, n1, body @ ..] = *octets;
            Piece::new(
                zoom,
                u32::from_be_bytes([c0, c1, c2, c3]),
                u32::from_be_bytes([r0, r1, r2, r3]),
                u16::from_be_bytes([n0, n1]),
                u64::from_be_bytes(body),
            )
        }

        fn write(self, buffer: &mut [u8]) -> Result<(), Fault> {
            let front: &mut [u8; Self::SIZE] = buffer.first_chunk_mut().ok_or(Fault::Octets)?;
            front[0] = self.zoom;
            front[1..5].copy_from_slice(&self.column.to_be_bytes());
            front[5..9].copy_from_slice(&self.row.to_be_bytes());
            front[9..11].copy_from_slice(&self.number.to_be_bytes());
            front[11..].copy_from_slice(&self.body.to_be_bytes());
            Ok(())
        }
    }

    /// The three bits of a frame.
    #[derive(Clone, Copy, Debug, PartialEq, Eq)]
    pub struct Bits {
        pub first: bool,
        pub last: bool,
        pub toggle: bool,
    }

    impl Bits {
        fn of_header(header: u8) -> Self {
            Bits {
                first: header & 0x80 != 0,
                last: header & 0x40 != 0,
                toggle: header & 0x20 != 0,
            }
        }

        fn header(self, kind: u8) -> u8 {
            u8::from(self.first) << 7 | u8::from(self.last) << 6 | u8::from(self.toggle) << 5 | kind
        }
    }

    #[derive(Clone, Copy, Debug, PartialEq, Eq)]
    pub struct Frame<L> {
        bits: Bits,
        load: L,
    }

    impl<L> Frame<L> {
        pub fn new(bits: Bits, load: L) -> Self {
            Frame { bits, load }
        }
    }

    impl<L: Load> Frame<L> {
        pub fn bits(&self) -> Bits {
            self.bits
        }

        pub fn load(&self) -> L {
            self.load
        }

        /// The number of the octets is looked at first, then the kind, then the fields.
        pub fn read(octets: &[u8]) -> Result<Self, Fault> {
            match octets {
                [header, load @ ..] if load.len() == L::SIZE => {
                    if header & 0x1F != L::KIND {
                        return Err(Fault::Kind);
                    }
                    Ok(Frame::new(Bits::of_header(*header), L::read(load)?))
                }
                _ => Err(Fault::Octets),
            }
        }

        /// Writes the frame to the front of the buffer, and answers how many octets it has.
        pub fn write(&self, buffer: &mut [u8]) -> Result<usize, Fault> {
            let (header, load) = buffer.split_first_mut().ok_or(Fault::Octets)?;
            // the load first, since its refusal must leave the header as it was
            self.load.write(load)?;
            *header = self.bits.header(L::KIND);
            Ok(1 + L::SIZE)
        }
    }

    pub struct Book<L> {
        loads: Vec<L>,
    }

    impl<L: Load> Book<L> {
        /// Ends after `count` loads, or before the first record that spells none.
        pub fn read(count: usize, octets: &[u8]) -> Self {
            let mut loads = Vec::with_capacity(count);
            let mut rest = octets;
            loads.extend((0..count).map_while(|_| {
                let (record, after) = rest.split_at_checked(L::SIZE)?;
                rest = after;
                L::read(record).ok()
            }));
            Book { loads }
        }

        pub fn len(&self) -> usize {
            self.loads.len()
        }

        pub fn load(&self, place: usize) -> Option<L> {
            self.loads.get(place).copied()
        }
    }

    impl<L> FromIterator<L> for Book<L> {
        fn from_iter<I: IntoIterator<Item = L>>(loads: I) -> Self {
            Book {
                loads: loads.into_iter().collect(),
            }
        }
    }
}

/// The rule of a channel, as a trait, and three channels that keep it.
mod channels {
    use super::loads::{Frame, Load, FRAME_OCTETS};
    use std::marker::PhantomData;

    /// A frame waits already, so no other is taken.
    #[derive(Debug, PartialEq, Eq)]
    pub struct Full;

    #[derive(Debug, PartialEq, Eq)]
    pub enum Poll<L> {
        Empty,
        Still,
        Arrived(Frame<L>),
        Lost,
    }

    pub trait Channel<L> {
        /// Takes the frame where none waits.
        fn put(&mut self, frame: Frame<L>) -> Result<(), Full>;

        /// What became of the frame that waits. After ARRIVED and LOST it has left.
        fn poll(&mut self) -> Poll<L>;

        /// Whether a frame waits.
        fn holds(&self) -> bool;
    }

    /// Holds a frame as it is.
    pub struct Store<L> {
        frame: Option<Frame<L>>,
    }

    impl<L> Store<L> {
        pub fn new() -> Self {
            Store { frame: None }
        }
    }

    impl<L: Load> Channel<L> for Store<L> {
        fn put(&mut self, frame: Frame<L>) -> Result<(), Full> {
            if self.frame.is_some() {
                return Err(Full);
            }
            self.frame = Some(frame);
            Ok(())
        }

        fn poll(&mut self) -> Poll<L> {
            self.frame.take().map_or(Poll::Empty, Poll::Arrived)
        }

        fn holds(&self) -> bool {
            self.frame.is_some()
        }
    }

    /// Holds a frame as its octets; none where nothing waits.
    pub struct Wire<L> {
        octets: [u8; FRAME_OCTETS],
        count: usize,
        kind: PhantomData<L>,
    }

    impl<L> Wire<L> {
        pub fn new() -> Self {
            Wire {
                octets: [0; FRAME_OCTETS],
                count: 0,
                kind: PhantomData,
            }
        }
    }

    impl<L: Load> Channel<L> for Wire<L> {
        fn put(&mut self, frame: Frame<L>) -> Result<(), Full> {
            if self.count != 0 {
                return Err(Full);
            }
            // no kind has more octets than the wire, so the write has room
            self.count = frame.write(&mut self.octets).map_err(|_| Full)?;
            Ok(())
        }

        fn poll(&mut self) -> Poll<L> {
            // no octets spell no frame, so a wire where nothing waits is empty
            let frame = Frame::read(&self.octets[..self.count]);
            self.count = 0;
            frame.map_or(Poll::Empty, Poll::Arrived)
        }

        fn holds(&self) -> bool {
            self.count != 0
        }
    }

    /// What becomes of a frame under a rain.
    #[derive(Clone, Copy, Debug, PartialEq, Eq)]
    pub enum Mark {
        Arrives,
        Lost,
        Delayed,
    }

    impl TryFrom<u8> for Mark {
        type Error = ();

        fn try_from(octet: u8) -> Result<Self, ()> {
            match octet {
                0 => Ok(Mark::Arrives),
                1 => Ok(Mark::Lost),
                2 => Ok(Mark::Delayed),
                _ => Err(()),
            }
        }
    }

    /// The marks of a rain. Behind the last that was given all are 0, which is what a frame has
    /// that takes none.
    #[derive(Debug)]
    pub struct Marks {
        list: [Mark; Self::MOST],
        next: usize,
    }

    impl Marks {
        const MOST: usize = 64;

        pub const NONE: Marks = Marks {
            list: [Mark::Arrives; Self::MOST],
            next: 0,
        };

        /// The marks of the octets, or the place of the first that is above 2 or is the 65th.
        pub fn read(octets: &[u8]) -> Result<Self, usize> {
            let mut marks = Self::NONE;
            for (place, &octet) in octets.iter().enumerate() {
                match (marks.list.get_mut(place), Mark::try_from(octet)) {
                    (Some(entry), Ok(mark)) => *entry = mark,
                    _ => return Err(place),
                }
            }
            Ok(marks)
        }

        fn take(&mut self) -> Mark {
            let Some(&mark) = self.list.get(self.next) else {
                return Mark::Arrives;
            };
            self.next += 1;
            mark
        }
    }

    /// A layer over a channel, which loses and delays by its marks.
    pub struct Rain<C> {
        below: C,
        marks: Marks,
        mark: Mark,
    }

    impl<C> Rain<C> {
        pub fn new(below: C, marks: Marks) -> Self {
            Rain {
                below,
                marks,
                mark: Mark::Arrives,
            }
        }
    }

    impl<L, C: Channel<L>> Channel<L> for Rain<C> {
        fn put(&mut self, frame: Frame<L>) -> Result<(), Full> {
            self.below.put(frame)?;
            self.mark = self.marks.take();
            Ok(())
        }

        fn poll(&mut self) -> Poll<L> {
            match self.mark {
                Mark::Arrives => self.below.poll(),
                Mark::Lost => match self.below.poll() {
                    Poll::Arrived(_) => Poll::Lost,
                    other => other,
                },
                // the frame that took this mark waits, since nothing was polled below since
                Mark::Delayed => {
                    self.mark = Mark::Arrives;
                    Poll::Still
                }
            }
        }

        fn holds(&self) -> bool {
            self.below.holds()
        }
    }
}

/// The link: the sender, the hut's end, and the twelve calls.
mod link {
    use super::channels::{Channel, Full, Poll};
    use super::loads::{Bits, Book, EmptyLoad, Frame, Load};
    use std::ops::Range;

    /// Why a call is turned down, with the number of each.
    #[derive(Clone, Copy, Debug, PartialEq, Eq)]
    pub enum Refusal {
        AlreadyJoined = 1,
        Repeats = 2,
        FrameWaits = 3,
        NotJoined = 4,
        RequestOpen = 5,
        Count = 6,
        BeyondBook = 7,
        NotDue = 8,
        NoLoad = 9,
        NothingWaits = 10,
        Full = 11,
        OutcomeOpen = 12,
        NoWord = 13,
    }

    impl Refusal {
        pub fn number(self) -> u32 {
            self as u32
        }
    }

    impl From<Full> for Refusal {
        fn from(_: Full) -> Self {
            Refusal::Full
        }
    }

    /// What became of a frame that was polled for.
    #[derive(Clone, Copy, Debug, PartialEq, Eq)]
    pub enum Heard {
        Still,
        Arrived,
        Lost,
    }

    impl Heard {
        pub fn word(self) -> &'static str {
            match self {
                Heard::Still => "STILL",
                Heard::Arrived => "ARRIVED",
                Heard::Lost => "LOST",
            }
        }
    }

    /// Where a load that is told stands in its message.
    #[derive(Clone, Copy, Debug, PartialEq, Eq)]
    pub enum Mark {
        Ok,
        First,
        Incomplete,
    }

    impl Mark {
        pub fn word(self) -> &'static str {
            match self {
                Mark::Ok => "OK",
                Mark::First => "FIRST",
                Mark::Incomplete => "INCOMPLETE",
            }
        }
    }

    /// How a message ended.
    #[derive(Clone, Copy, Debug, PartialEq, Eq)]
    pub enum Word {
        Ok,
        NotOk,
        DontKnow,
    }

    impl Word {
        pub fn word(self) -> &'static str {
            match self {
                Word::Ok => "OK",
                Word::NotOk => "NOT_OK",
                Word::DontKnow => "DONT_KNOW",
            }
        }
    }

    #[derive(Clone, Copy, Debug, PartialEq, Eq)]
    pub enum Call {
        Request { start: u16, count: u16 },
        Send,
        Carry,
        Tell,
        Reply,
        Return,
        Retry,
        Abandon,
        Confirm,
        Part,
        Break,
        Meet,
    }

    /// What an accepted call answers.
    #[derive(Clone, Copy, Debug, PartialEq, Eq)]
    pub enum Answer<L> {
        Done,
        Heard(Heard),
        Told(Mark, L),
        Word(Word),
    }

    fn due(condition: bool) -> Result<(), Refusal> {
        if condition {
            Ok(())
        } else {
            Err(Refusal::NotDue)
        }
    }

    /// The sender's places: SF, WA, SC, ET2 and WT2 of docs/MACHINE.md.
    #[derive(Clone, Copy, Debug, PartialEq, Eq)]
    enum SenderPlace {
        MaySend,
        AwaitsReply,
        HasToConfirm,
        HasToPart,
        HasToMeet,
    }

    struct Sender {
        place: SenderPlace,
        open: bool,
        first: bool,
        armed: bool,
        lost: bool,
        toggle: bool,
        rest: Range<usize>,
        tries: u32,
    }

    impl Sender {
        const MOST_LOADS: u16 = 4096;

        fn new() -> Self {
            Sender {
                place: SenderPlace::MaySend,
                open: false,
                first: true,
                armed: false,
                lost: false,
                toggle: false,
                rest: 0..0,
                tries: 0,
            }
        }

        fn request(&mut self, book_len: usize, start: u16, count: u16) -> Result<(), Refusal> {
            let end = usize::from(start) + usize::from(count);
            if self.open {
                Err(Refusal::RequestOpen)
            } else if !(1..=Self::MOST_LOADS).contains(&count) {
                Err(Refusal::Count)
            } else if end > book_len {
                Err(Refusal::BeyondBook)
            } else {
                self.rest = usize::from(start)..end;
                self.open = true;
                Ok(())
            }
        }

        fn may_send(&self) -> bool {
            self.place == SenderPlace::MaySend && self.open
        }

        /// The frame that is to be sent. `sent` is for when the channel has taken it.
        fn frame<L: Load>(&self, book: &Book<L>) -> Result<Frame<L>, Refusal> {
            due(self.may_send())?;
            let place = self.rest.clone().next();
            let load = place
                .and_then(|place| book.load(place))
                .ok_or(Refusal::NoLoad)?;
            let last = self.rest.len() == 1;
            Ok(Frame::new(
                Bits {
                    first: self.first,
                    last,
                    toggle: self.toggle,
                },
                load,
            ))
        }

        fn sent(&mut self) {
            self.place = SenderPlace::AwaitsReply;
            self.armed = true;
            self.tries = self.tries.wrapping_add(1);
        }

        fn miss(&mut self) {
            self.lost = true;
        }

        fn take_reply(&mut self) {
            if self.rest.len() == 1 {
                self.place = SenderPlace::HasToConfirm;
                self.first = true;
            } else {
                self.place = SenderPlace::MaySend;
                self.first = false;
                self.tries = 0;
            }
            self.toggle = !self.toggle;
            self.armed = false;
            self.rest.next();
        }

        fn retry(&mut self, repeats: u8) -> Result<(), Refusal> {
            due(self.armed && self.lost)?;
            self.place = if self.tries <= u32::from(repeats) {
                SenderPlace::MaySend
            } else {
                SenderPlace::HasToConfirm
            };
            self.armed = false;
            self.lost = false;
            Ok(())
        }

        fn abandon(&mut self) -> Result<(), Refusal> {
            due(self.may_send())?;
            self.place = SenderPlace::HasToConfirm;
            Ok(())
        }

        fn confirm(&mut self) -> Result<Word, Refusal> {
            due(self.place == SenderPlace::HasToConfirm)?;
            let word = match self.rest.len() {
                0 => Word::Ok,
                1 if self.tries != 0 => Word::DontKnow,
                _ => Word::NotOk,
            };
            self.place = match word {
                Word::Ok => SenderPlace::MaySend,
                Word::NotOk | Word::DontKnow => SenderPlace::HasToPart,
            };
            self.open = false;
            self.rest = 0..0;
            self.tries = 0;
            Ok(word)
        }

        fn part(&mut self) -> Result<(), Refusal> {
            due(self.place == SenderPlace::HasToPart)?;
            self.place = SenderPlace::HasToMeet;
            self.first = true;
            self.toggle = !self.toggle;
            Ok(())
        }

        fn meet(&mut self) {
            self.place = SenderPlace::MaySend;
        }
    }

    /// The hut's places: WF, SI, SA, RTS and NOK of docs/MACHINE.md. Each has what is still
    /// needed of the frame that is held.
    #[derive(Clone, Copy, Debug, PartialEq, Eq)]
    enum HutPlace<L> {
        AwaitsFrame,
        HasToTell(Frame<L>),
        HasToReply(Bits),
        HasToReplyAgain(Bits),
        HasToTellBreak,
    }

    struct Hut<L> {
        place: HutPlace<L>,
        fresh: bool,
        strict: bool,
        timer: bool,
        quiet: bool,
        expected: bool,
    }

    impl<L: Load> Hut<L> {
        fn new() -> Self {
            Hut {
                place: HutPlace::AwaitsFrame,
                fresh: true,
                strict: false,
                timer: false,
                quiet: false,
                expected: false,
            }
        }

        /// Takes a frame that arrived. It is gone where the hut awaits none.
        fn take_frame(&mut self, frame: Frame<L>) {
            if !matches!(self.place, HutPlace::AwaitsFrame) {
                return;
            }
            let bits = frame.bits();
            if self.strict && bits.toggle != self.expected {
                self.place = HutPlace::HasToReplyAgain(bits);
            } else {
                self.place = HutPlace::HasToTell(frame);
                self.timer = false;
            }
        }

        fn tell(&mut self) -> Result<(Mark, L), Refusal> {
            let HutPlace::HasToTell(frame) = self.place else {
                return Err(Refusal::NotDue);
            };
            let bits = frame.bits();
            let mark = if bits.last {
                Mark::Ok
            } else if bits.first {
                Mark::First
            } else {
                Mark::Incomplete
            };
            self.place = HutPlace::HasToReply(bits);
            self.fresh = bits.last;
            self.strict = true;
            self.expected = !bits.toggle;
            Ok((mark, frame.load()))
        }

        fn reply(&mut self, back: &mut impl Channel<EmptyLoad>) -> Result<(), Refusal> {
            let (bits, timer) = match self.place {
                HutPlace::HasToReply(bits) => (bits, true),
                HutPlace::HasToReplyAgain(bits) => (bits, self.timer),
                _ => return Err(Refusal::NotDue),
            };
            back.put(Frame::new(bits, EmptyLoad))?;
            self.timer = timer;
            self.place = HutPlace::AwaitsFrame;
            Ok(())
        }

        fn part(&mut self) {
            self.quiet = true;
            if self.timer {
                self.strict = false;
                if !self.fresh {
                    self.place = HutPlace::HasToTellBreak;
                    self.timer = false;
                }
            }
        }

        fn tell_break(&mut self) -> Result<(), Refusal> {
            due(matches!(self.place, HutPlace::HasToTellBreak))?;
            self.place = HutPlace::AwaitsFrame;
            self.fresh = true;
            self.timer = true;
            Ok(())
        }

        fn meet(&mut self) -> Result<(), Refusal> {
            due(self.quiet && matches!(self.place, HutPlace::AwaitsFrame))?;
            self.quiet = false;
            Ok(())
        }
    }

    pub struct Link<L, K, B> {
        sender: Sender,
        hut: Hut<L>,
        to_hut: K,
        back: B,
        told: u32,
        word: Option<Word>,
        repeats: Option<u8>,
    }

    impl<L: Load, K: Channel<L>, B: Channel<EmptyLoad>> Link<L, K, B> {
        const MOST_REPEATS: u8 = 10;

        /// A link over two channels, not joined.
        pub fn new(to_hut: K, back: B) -> Self {
            Link {
                sender: Sender::new(),
                hut: Hut::new(),
                to_hut,
                back,
                told: 0,
                word: None,
                repeats: None,
            }
        }

        /// Joins the ends. Before it every call is refused, so both are still at the start.
        pub fn join(&mut self, repeats: u8) -> Result<(), Refusal> {
            if self.repeats.is_some() {
                return Err(Refusal::AlreadyJoined);
            }
            if repeats > Self::MOST_REPEATS {
                return Err(Refusal::Repeats);
            }
            if self.to_hut.holds() || self.back.holds() {
                return Err(Refusal::FrameWaits);
            }
            self.repeats = Some(repeats);
            Ok(())
        }

        fn joined(&self) -> Result<u8, Refusal> {
            self.repeats.ok_or(Refusal::NotJoined)
        }

        pub fn request(&mut self, book: &Book<L>, start: u16, count: u16) -> Result<(), Refusal> {
            self.joined()?;
            self.sender.request(book.len(), start, count)?;
            self.told = 0;
            Ok(())
        }

        pub fn send(&mut self, book: &Book<L>) -> Result<(), Refusal> {
            self.joined()?;
            let frame = self.sender.frame(book)?;
            self.to_hut.put(frame)?;
            self.sender.sent();
            Ok(())
        }

        pub fn carry(&mut self) -> Result<Heard, Refusal> {
            self.joined()?;
            match self.to_hut.poll() {
                Poll::Empty => Err(Refusal::NothingWaits),
                Poll::Still => Ok(Heard::Still),
                Poll::Arrived(frame) => {
                    self.hut.take_frame(frame);
                    Ok(Heard::Arrived)
                }
                Poll::Lost => {
                    self.sender.miss();
                    Ok(Heard::Lost)
                }
            }
        }

        pub fn tell(&mut self) -> Result<(Mark, L), Refusal> {
            self.joined()?;
            let told = self.hut.tell()?;
            self.told = self.told.wrapping_add(1);
            Ok(told)
        }

        pub fn reply(&mut self) -> Result<(), Refusal> {
            self.joined()?;
            self.hut.reply(&mut self.back)
        }

        pub fn return_reply(&mut self) -> Result<Heard, Refusal> {
            self.joined()?;
            match self.back.poll() {
                Poll::Empty => Err(Refusal::NothingWaits),
                Poll::Still => Ok(Heard::Still),
                Poll::Arrived(_) => {
                    self.sender.take_reply();
                    Ok(Heard::Arrived)
                }
                Poll::Lost => {
                    self.sender.miss();
                    Ok(Heard::Lost)
                }
            }
        }

        pub fn retry(&mut self) -> Result<(), Refusal> {
            let repeats = self.joined()?;
            self.sender.retry(repeats)
        }

        pub fn abandon(&mut self) -> Result<(), Refusal> {
            self.joined()?;
            self.sender.abandon()
        }

        pub fn confirm(&mut self) -> Result<Word, Refusal> {
            self.joined()?;
            let word = self.sender.confirm()?;
            self.word = Some(word);
            Ok(word)
        }

        pub fn part(&mut self) -> Result<(), Refusal> {
            self.joined()?;
            self.sender.part()?;
            self.hut.part();
            Ok(())
        }

        pub fn tell_break(&mut self) -> Result<(), Refusal> {
            self.joined()?;
            self.hut.tell_break()
        }

        pub fn meet(&mut self) -> Result<(), Refusal> {
            self.joined()?;
            self.hut.meet()?;
            self.sender.meet();
            Ok(())
        }

        /// The word of the last message that was confirmed, and how many loads of it were told.
        pub fn outcome(&self) -> Result<(Word, u32), Refusal> {
            self.joined()?;
            if self.sender.open {
                return Err(Refusal::OutcomeOpen);
            }
            let word = self.word.ok_or(Refusal::NoWord)?;
            Ok((word, self.told))
        }

        /// Makes any of the twelve calls.
        pub fn make(&mut self, call: Call, book: &Book<L>) -> Result<Answer<L>, Refusal> {
            let done = |()| Answer::Done;
            match call {
                Call::Request { start, count } => self.request(book, start, count).map(done),
                Call::Send => self.send(book).map(done),
                Call::Carry => self.carry().map(Answer::Heard),
                Call::Tell => self.tell().map(|(mark, load)| Answer::Told(mark, load)),
                Call::Reply => self.reply().map(done),
                Call::Return => self.return_reply().map(Answer::Heard),
                Call::Retry => self.retry().map(done),
                Call::Abandon => self.abandon().map(done),
                Call::Confirm => self.confirm().map(Answer::Word),
                Call::Part => self.part().map(done),
                Call::Break => self.tell_break().map(done),
                Call::Meet => self.meet().map(done),
            }
        }
    }
}

/// Call sheets: how they are read, run and printed.
mod sheet {
    use super::channels::{Channel, Marks, Rain, Store, Wire};
    use super::link::{Answer, Call, Link, Refusal};
    use super::loads::{Book, EmptyLoad, Load, Piece, Reading, FRAME_OCTETS};

    /// One octet more than a sheet may have: enough to see that an input is too long.
    pub const INPUT_LIMIT: usize = MOST_OCTETS + 1;

    const MOST_OCTETS: usize = 16_384;
    const TRAILER_OCTETS: usize = 18;
    const MOST_REPEATS: u8 = 10;
    const MOST_CALLS: usize = 1_024;

    /// What is wrong with a sheet, with the number of each.
    #[derive(Clone, Copy, Debug, PartialEq, Eq)]
    enum SheetRefusal {
        Size = 17,
        Setting = 18,
        Distances = 19,
        Load = 20,
        Mark = 21,
        Call = 22,
    }

    #[derive(Clone, Copy, Debug, PartialEq, Eq)]
    struct SheetFault {
        refusal: SheetRefusal,
        place: usize,
    }

    impl SheetRefusal {
        fn at(self, place: usize) -> SheetFault {
            SheetFault {
                refusal: self,
                place,
            }
        }
    }

    #[derive(Clone, Copy, Debug, PartialEq, Eq)]
    enum Kind {
        Readings,
        Pieces,
    }

    /// A sheet with its trailer read, and its lists cut but not yet read.
    struct Lists<'a> {
        kind: Kind,
        repeats: u8,
        book: &'a [u8],
        to_hut: &'a [u8],
        back: &'a [u8],
        calls: &'a [u8],
    }

    impl<'a> Lists<'a> {
        fn read(octets: &'a [u8]) -> Result<Self, SheetFault> {
            let size = SheetRefusal::Size.at(octets.len());
            if octets.len() > MOST_OCTETS {
                return Err(size);
            }
            let (lists, trailer) = octets.split_last_chunk::<TRAILER_OCTETS>().ok_or(size)?;
            let [distances @ .., kind, repeats] = trailer;
            let kind = match kind {
                1 => Kind::Readings,
                2 => Kind::Pieces,
                _ => return Err(SheetRefusal::Setting.at(lists.len() + distances.len())),
            };
            if *repeats > MOST_REPEATS {
                return Err(SheetRefusal::Setting.at(lists.len() + distances.len() + 1));
            }
            let [book, to_hut, back, calls] =
                cut(lists, distances).ok_or(SheetRefusal::Distances.at(lists.len()))?;
            Ok(Lists {
                kind,
                repeats: *repeats,
                book,
                to_hut,
                back,
                calls,
            })
        }
    }

    /// The four lists by their distances. A distance is how many octets are left from the start
    /// of its list on, so none can be above what the one before it leaves.
    fn cut<'a>(lists: &'a [u8], distances: &[u8; 16]) -> Option<[&'a [u8]; 4]> {
        let mut rest = lists;
        let mut starts = distances.chunks_exact(4).map(|distance| {
            distance
                .iter()
                .fold(0, |left, &octet| left << 8 | usize::from(octet))
        });
        let mut up_to_next = || {
            let place = rest.len().checked_sub(starts.next()?)?;
            let (list, after) = rest.split_at(place);
            rest = after;
            Some(list)
        };
        let before_book = up_to_next()?;
        let (book, to_hut, back) = (up_to_next()?, up_to_next()?, up_to_next()?);
        before_book.is_empty().then_some([book, to_hut, back, rest])
    }

    struct Sheet<L> {
        repeats: u8,
        book: Book<L>,
        to_hut: Marks,
        back: Marks,
        calls: Vec<Call>,
    }

    impl<L: Load> Sheet<L> {
        /// The lists are read in their order, which is also that of the numbers of their faults.
        fn read(lists: &Lists) -> Result<Self, SheetFault> {
            let to_hut_place = lists.book.len();
            let back_place = to_hut_place + lists.to_hut.len();
            let calls_place = back_place + lists.back.len();
            Ok(Sheet {
                repeats: lists.repeats,
                book: read_book(lists.book).map_err(|place| SheetRefusal::Load.at(place))?,
                to_hut: Marks::read(lists.to_hut)
                    .map_err(|place| SheetRefusal::Mark.at(to_hut_place + place))?,
                back: Marks::read(lists.back)
                    .map_err(|place| SheetRefusal::Mark.at(back_place + place))?,
                calls: read_calls(lists.calls)
                    .map_err(|place| SheetRefusal::Call.at(calls_place + place))?,
            })
        }

        /// Makes the calls, and prints a line of each.
        fn run(self) -> Result<Vec<u8>, Refusal> {
            let to_hut = Rain::new(Wire::new(), self.to_hut);
            let back = Rain::new(Store::new(), self.back);
            let mut link = Link::new(to_hut, back);
            link.join(self.repeats)?;
            Ok(lines(&mut link, &self.book, &self.calls))
        }
    }

    /// The book, or the place of the first record that spells no load.
    fn read_book<L: Load>(octets: &[u8]) -> Result<Book<L>, usize> {
        let records = octets.len().div_ceil(L::SIZE);
        let book = Book::read(records, octets);
        if book.len() == records {
            Ok(book)
        } else {
            Err(book.len() * L::SIZE)
        }
    }

    /// The calls, or the place of the first letter that is of none or is one too many.
    fn read_calls(octets: &[u8]) -> Result<Vec<Call>, usize> {
        let mut calls = Vec::with_capacity(octets.len().min(MOST_CALLS));
        let mut rest = octets;
        while !rest.is_empty() {
            match read_call(rest) {
                Some((call, after)) if calls.len() < MOST_CALLS => {
                    calls.push(call);
                    rest = after;
                }
                _ => return Err(octets.len() - rest.len()),
            }
        }
        Ok(calls)
    }

    /// The call at the front, with the octets behind it.
    fn read_call(octets: &[u8]) -> Option<(Call, &[u8])> {
        let (&letter, after) = octets.split_first()?;
        let call = match letter {
            b'Q' => {
                let (&[s0, s1, c0, c1], after) = after.split_first_chunk()?;
                let start = u16::from_be_bytes([s0, s1]);
                let count = u16::from_be_bytes([c0, c1]);
                return Some((Call::Request { start, count }, after));
            }
            b'S' => Call::Send,
            b'C' => Call::Carry,
            b'T' => Call::Tell,
            b'R' => Call::Reply,
            b'B' => Call::Return,
            b'Y' => Call::Retry,
            b'A' => Call::Abandon,
            b'F' => Call::Confirm,
            b'P' => Call::Part,
            b'N' => Call::Break,
            b'M' => Call::Meet,
            _ => return None,
        };
        Some((call, after))
    }

    fn letter(call: Call) -> u8 {
        match call {
            Call::Request { .. } => b'Q',
            Call::Send => b'S',
            Call::Carry => b'C',
            Call::Tell => b'T',
            Call::Reply => b'R',
            Call::Return => b'B',
            Call::Retry => b'Y',
            Call::Abandon => b'A',
            Call::Confirm => b'F',
            Call::Part => b'P',
            Call::Break => b'N',
            Call::Meet => b'M',
        }
    }

    fn lines<L, K, B>(link: &mut Link<L, K, B>, book: &Book<L>, calls: &[Call]) -> Vec<u8>
    where
        L: Load,
        K: Channel<L>,
        B: Channel<EmptyLoad>,
    {
        // `C 0 ARRIVED` and its line feed are the longest line but for T
        let mut text = Vec::with_capacity(calls.len() * 12);
        for &call in calls {
            let answer = link.make(call, book);
            push_line(&mut text, call, answer);
        }
        text
    }

    fn push_line<L: Load>(text: &mut Vec<u8>, call: Call, answer: Result<Answer<L>, Refusal>) {
        text.extend_from_slice(&[letter(call), b' ']);
        match answer {
            Ok(answer) => {
                text.push(b'0');
                push_shown(text, answer);
            }
            Err(refusal) => push_decimal(text, refusal.number()),
        }
        text.push(b'\n');
    }

    /// What an accepted call shows behind its number.
    fn push_shown<L: Load>(text: &mut Vec<u8>, answer: Answer<L>) {
        match answer {
            Answer::Done => {}
            Answer::Heard(heard) => push_word(text, heard.word()),
            Answer::Told(mark, load) => {
                push_word(text, mark.word());
                text.push(b' ');
                push_hexadecimal(text, load);
            }
            Answer::Word(word) => push_word(text, word.word()),
        }
    }

    fn push_decimal(text: &mut Vec<u8>, number: u32) {
        if number >= 10 {
            push_decimal(text, number / 10);
        }
        text.push(b'0' + (number % 10) as u8);
    }

    fn push_word(text: &mut Vec<u8>, word: &str) {
        text.push(b' ');
        text.extend_from_slice(word.as_bytes());
    }

    fn push_hexadecimal<L: Load>(text: &mut Vec<u8>, load: L) {
        const DIGITS: &[u8; 16] = b"0123456789ABCDEF";
        let mut octets = [0; FRAME_OCTETS];
        // no load has more octets than a frame, so the write has room
        if load.write(&mut octets).is_ok() {
            for octet in &octets[..L::SIZE] {
                text.push(DIGITS[usize::from(octet >> 4)]);
                text.push(DIGITS[usize::from(octet & 0x0F)]);
            }
        }
    }

    fn printed(octets: &[u8]) -> Result<Result<Vec<u8>, Refusal>, SheetFault> {
        let lists = Lists::read(octets)?;
        Ok(match lists.kind {
            Kind::Readings => Sheet::<Reading>::read(&lists)?.run(),
            Kind::Pieces => Sheet::<Piece>::read(&lists)?.run(),
        })
    }

    /// All that the octets of a sheet print. The join is not refused: the repeats of a sheet
    /// that was read are at most 10, and nothing waits in channels that are new.
    pub fn sheet_lines(octets: &[u8]) -> Result<Vec<u8>, Refusal> {
        printed(octets).unwrap_or_else(|SheetFault { refusal, place }| {
            Ok(format!("sheet {} at {place}\n", refusal as u32).into_bytes())
        })
    }
}

/// The loops for measuring speed.
mod speed {
    use super::channels::{Marks, Rain, Store, Wire};
    use super::link::{Link, Refusal, Word};
    use super::loads::{Bits, Book, EmptyLoad, Fault, Frame, Load, Piece, Reading, FRAME_OCTETS};

    type ReadingLink = Link<Reading, Rain<Wire<Reading>>, Rain<Store<EmptyLoad>>>;

    pub const MOST_LOADS: u32 = 4096;
    const REPEATS: u8 = 2;

    /// How many frames of each kind a block has. They are all written before the first is read.
    const BLOCK: u32 = 1024;

    /// Room for a frame of a piece and one of a reading.
    const ROOM: usize = 2 * FRAME_OCTETS;

    fn readings(loads: u32) -> Book<Reading> {
        (0..loads)
            .map(|i| Reading::new(i.wrapping_mul(2_654_435_761)))
            .collect()
    }

    fn joined_link() -> Result<ReadingLink, Refusal> {
        let to_hut = Rain::new(Wire::new(), Marks::NONE);
        let back = Rain::new(Store::new(), Marks::NONE);
        let mut link = Link::new(to_hut, back);
        link.join(REPEATS)?;
        Ok(link)
    }

    /// Counts calls, and adds up their answer numbers and what else is given to it.
    #[derive(Default)]
    struct Tally {
        calls: u64,
        sum: u32,
    }

    impl Tally {
        fn add(&mut self, value: u32) {
            self.sum = self.sum.wrapping_add(value);
        }

        /// Takes the answer of a call, and gives what it has if it was accepted.
        fn take<T>(&mut self, answer: Result<T, Refusal>) -> Option<T> {
            self.calls += 1;
            answer.map_err(|refusal| self.add(refusal.number())).ok()
        }
    }

    pub fn calls(rounds: u64) -> Result<String, Refusal> {
        let book = readings(MOST_LOADS);
        let mut link = joined_link()?;
        let mut tally = Tally::default();
        for round in 0..rounds {
            tally.take(link.request(&book, (round * 7 % 4093) as u16, 3));
            for _ in 0..3 {
                deliver(&mut link, &book, &mut tally);
            }
            tally.take(link.confirm());
        }
        let outcome = match link.outcome() {
            Ok((word, told)) => format!("word {} told {told}", word.word()),
            Err(refusal) => format!("refused {}", refusal.number()),
        };
        Ok(format!("calls {} sum {} {outcome}", tally.calls, tally.sum))
    }

    pub fn requests(loads: u32, rounds: u64) -> Result<String, Refusal> {
        let book = readings(loads);
        let mut link = joined_link()?;
        let mut tally = Tally::default();
        let mut chance = 1;
        for _ in 0..rounds {
            chance = next(chance);
            let start = ((chance >> 33) % u64::from(loads)) as u16;
            tally.take(link.request(&book, start, 1));
            if chance >> 63 == 1 {
                tally.take(link.abandon());
            } else {
                deliver(&mut link, &book, &mut tally);
            }
            if let Some(word) = tally.take(link.confirm()) {
                tally.add(number(word));
            }
            if chance >> 63 == 1 {
                tally.take(link.part());
                tally.take(link.meet());
            }
        }
        let outcome = match link.outcome() {
            Ok((_, told)) => format!("told {told}"),
            Err(refusal) => format!("refused {}", refusal.number()),
        };
        Ok(format!("requests {rounds} sum {} {outcome}", tally.sum))
    }

    /// The next number of a row that looks random, so that what becomes of a message is not known
    /// to the compiler.
    fn next(number: u64) -> u64 {
        number
            .wrapping_mul(6_364_136_223_846_793_005)
            .wrapping_add(1_442_695_040_888_963_407)
    }

    /// Makes the five calls by which the next load is delivered.
    fn deliver(link: &mut ReadingLink, book: &Book<Reading>, tally: &mut Tally) {
        tally.take(link.send(book));
        tally.take(link.carry());
        if let Some((_, load)) = tally.take(link.tell()) {
            tally.add(load.value());
        }
        tally.take(link.reply());
        tally.take(link.return_reply());
    }

    fn number(word: Word) -> u32 {
        match word {
            Word::Ok => 0,
            Word::NotOk => 1,
            Word::DontKnow => 2,
        }
    }

    pub fn frames(rounds: u64) -> Result<String, Fault> {
        let pairs = (0..BLOCK).map(Pair::of).collect::<Result<Vec<Pair>, Fault>>()?;
        let mut octets = vec![0; pairs.len() * ROOM];
        let mut sum = 0_u64;
        for _ in 0..rounds {
            write_block(&pairs, &mut octets)?;
            sum = sum.wrapping_add(read_block(&octets)?);
        }
        let frames = rounds.wrapping_mul(2 * u64::from(BLOCK));
        Ok(format!("frames {frames} sum {sum}"))
    }

    /// A frame of each kind.
    struct Pair {
        piece: Frame<Piece>,
        reading: Frame<Reading>,
    }

    impl Pair {
        fn of(number: u32) -> Result<Pair, Fault> {
            let bits = Bits {
                first: number & 1 != 0,
                last: number & 2 != 0,
                toggle: number & 4 != 0,
            };
            let body = u64::from(number).wrapping_mul(0x9E37_79B9_7F4A_7C15);
            let piece = Piece::new(20, number, number.wrapping_mul(3), number as u16, body)?;
            Ok(Pair {
                piece: Frame::new(bits, piece),
                reading: Frame::new(bits, Reading::new(number)),
            })
        }
    }

    fn write_block(pairs: &[Pair], octets: &mut [u8]) -> Result<(), Fault> {
        for (pair, room) in pairs.iter().zip(octets.chunks_exact_mut(ROOM)) {
            let (at_piece, at_reading) = room.split_at_mut(FRAME_OCTETS);
            pair.piece.write(at_piece)?;
            pair.reading.write(at_reading)?;
        }
        Ok(())
    }

    /// The sum of what the loads of a block have.
    fn read_block(octets: &[u8]) -> Result<u64, Fault> {
        let mut sum = 0_u64;
        for room in octets.chunks_exact(ROOM) {
            let (at_piece, at_reading) = room.split_at(FRAME_OCTETS);
            let piece = load_at::<Piece>(at_piece)?;
            let reading = load_at::<Reading>(at_reading)?;
            sum = sum
                .wrapping_add(piece.body())
                .wrapping_add(u64::from(piece.column()))
                .wrapping_add(u64::from(piece.row()))
                .wrapping_add(u64::from(piece.number()))
                .wrapping_add(u64::from(reading.value()));
        }
        Ok(sum)
    }

    /// The load of the frame at the front of some octets.
    fn load_at<L: Load>(octets: &[u8]) -> Result<L, Fault> {
        Ok(Frame::<L>::read(&octets[..L::SIZE + 1])?.load())
    }
}

const USAGE: &str = "usage: callsheet < SHEET
       callsheet calls ROUNDS
       callsheet frames ROUNDS
       callsheet requests LOADS ROUNDS    (LOADS is 1 to 4096)";

enum Task {
    Sheet,
    Calls { rounds: u64 },
    Frames { rounds: u64 },
    Requests { loads: u32, rounds: u64 },
}

impl Task {
    fn of_arguments() -> Option<Self> {
        let arguments: Vec<_> = env::args_os().skip(1).collect();
        let words: Option<Vec<_>> = arguments.iter().map(|argument| argument.to_str()).collect();
        match words?.as_slice() {
            [] => Some(Task::Sheet),
            ["calls", rounds] => Some(Task::Calls {
                rounds: rounds.parse().ok()?,
            }),
            ["frames", rounds] => Some(Task::Frames {
                rounds: rounds.parse().ok()?,
            }),
            ["requests", loads, rounds] => {
                let loads = loads
                    .parse()
                    .ok()
                    .filter(|n| (1..=speed::MOST_LOADS).contains(n))?;
                Some(Task::Requests {
                    loads,
                    rounds: rounds.parse().ok()?,
                })
            }
            _ => None,
        }
    }

    /// What is to be printed, or why nothing is.
    fn run(self) -> Result<Vec<u8>, String> {
        let refused = |number: u32| format!("refused {number}");
        let line = match self {
            Task::Sheet => {
                let octets = input().map_err(|error| error.to_string())?;
                return sheet::sheet_lines(&octets).map_err(|refusal| refused(refusal.number()));
            }
            Task::Calls { rounds } => speed::calls(rounds).map_err(|r| refused(r.number())),
            Task::Frames { rounds } => speed::frames(rounds).map_err(|f| refused(f.number())),
            Task::Requests { loads, rounds } => {
                speed::requests(loads, rounds).map_err(|r| refused(r.number()))
            }
        }?;
        Ok((line + "\n").into_bytes())
    }
}

/// Standard input, as far as a sheet may go and one octet more.
fn input() -> io::Result<Vec<u8>> {
    let mut octets = Vec::with_capacity(sheet::INPUT_LIMIT);
    io::stdin()
        .lock()
        .take(sheet::INPUT_LIMIT as u64)
        .read_to_end(&mut octets)?;
    Ok(octets)
}

fn main() -> ExitCode {
    let Some(task) = Task::of_arguments() else {
        eprintln!("{USAGE}");
        return ExitCode::from(2);
    };
    let printed = task.run().and_then(|text| {
        let mut output = io::stdout().lock();
        let written = output.write_all(&text).and_then(|()| output.flush());
        written.map_err(|error| error.to_string())
    });
    match printed {
        Ok(()) => ExitCode::SUCCESS,
        Err(error) => {
            eprintln!("callsheet: {error}");
            ExitCode::FAILURE
        }
    }
}

#[cfg(test)]
mod tests {
    use super::channels::{Channel, Full, Marks, Poll, Rain, Store, Wire};
    use super::link::{Link, Refusal};
    use super::loads::{Bits, Book, EmptyLoad, Fault, Frame, Load, Piece, Reading};

    const BITS: Bits = Bits {
        first: true,
        last: false,
        toggle: false,
    };

    #[test]
    fn frames_are_turned_down_by_number_then_kind_then_fields() {
        let mut octets = [0xFF; 6];
        assert_eq!(Frame::new(BITS, Reading::new(7)).write(&mut octets), Ok(5));
        assert_eq!(octets, [0x81, 0, 0, 0, 7, 0xFF]);
        assert_eq!(
            Frame::new(BITS, Reading::new(0)).write(&mut octets[..4]),
            Err(Fault::Octets)
        );
        assert_eq!(octets, [0x81, 0, 0, 0, 7, 0xFF]);
        assert_eq!(Frame::<Reading>::read(&octets), Err(Fault::Octets));
        assert_eq!(
            Frame::<Reading>::read(&[0x9F, 0, 0, 0, 7]),
            Err(Fault::Kind)
        );
        let mut piece = [0; 20];
        piece[..2].copy_from_slice(&[0x82, 21]);
        assert_eq!(Frame::<Piece>::read(&piece), Err(Fault::Range));
        assert_eq!(Piece::new(0, 0, 1, 0, 0), Err(Fault::Range));
        assert_eq!(Frame::new(BITS, EmptyLoad).write(&mut piece), Ok(1));
        assert_eq!(EmptyLoad::read(&[0]), Err(Fault::Octets));
    }

    #[test]
    fn a_channel_that_holds_a_frame_takes_no_other() {
        let frame = Frame::new(BITS, Reading::new(7));
        let mut rain = Rain::new(Wire::new(), Marks::read(&[2, 1]).unwrap());
        assert_eq!((rain.poll(), rain.put(frame)), (Poll::Empty, Ok(())));
        assert_eq!((rain.put(frame), rain.poll()), (Err(Full), Poll::Still));
        assert_eq!(
            (rain.poll(), rain.poll()),
            (Poll::Arrived(frame), Poll::Empty)
        );
        assert_eq!((rain.put(frame), rain.poll()), (Ok(()), Poll::Lost));
    }

    #[test]
    fn what_no_sheet_can_reach() {
        let book: Book<Reading> = [Reading::new(7)].into_iter().collect();
        let none: Book<Reading> = Book::read(1, &[]);
        let mut link = Link::new(Store::new(), Store::new());
        assert_eq!(link.send(&book), Err(Refusal::NotJoined));
        assert_eq!(link.join(11), Err(Refusal::Repeats));
        assert_eq!(
            (link.join(10), link.join(11)),
            (Ok(()), Err(Refusal::AlreadyJoined))
        );
        assert_eq!(link.outcome(), Err(Refusal::NoWord));
        assert_eq!(link.request(&book, 0, 1), Ok(()));
        assert_eq!(link.outcome(), Err(Refusal::OutcomeOpen));
        assert_eq!(
            (link.send(&none), link.send(&book)),
            (Err(Refusal::NoLoad), Ok(()))
        );
        let mut held = Store::new();
        assert_eq!(held.put(Frame::new(BITS, EmptyLoad)), Ok(()));
        assert_eq!(
            Link::new(Store::<Reading>::new(), held).join(0),
            Err(Refusal::FrameWaits)
        );
    }
}
