//! Makes call sheets from a seed, runs two programs on each, and compares what they print.
//!
//!     compare run SEED COUNT OURS SECOND [FOLDER]   compares the programs, and prints what the sheets reached;
//!                                                   each difference goes into FOLDER, or into the current folder
//!     compare table SEED COUNT SECOND FOLDER        adds short sheets, and what SECOND prints of each, to the files stdin and
//!                                                   stdout in FOLDER
//!     compare sheets SEED COUNT FOLDER              writes the sheets of a run into FOLDER
//!
//! Sheet I of a seed depends on the seed and on I alone.

use std::collections::{BTreeMap, VecDeque};
use std::error::Error;
use std::fs;
use std::io::{ErrorKind, Write};
use std::ops::RangeInclusive;
use std::path::Path;
use std::process::{Command, ExitCode, Stdio};
use std::sync::atomic::{AtomicUsize, Ordering};
use std::thread;

// Random numbers.

/// Random numbers that are the same on every machine: splitmix64.
struct Random(u64);

impl Random {
    /// The numbers of one sheet of a seed.
    fn of_sheet(seed: u64, index: usize) -> Self {
        let seeded = Random(seed).next();
        Random(Random(seeded ^ index as u64).next())
    }

    fn next(&mut self) -> u64 {
        self.0 = self.0.wrapping_add(0x9E37_79B9_7F4A_7C15);
        let mixed = (self.0 ^ (self.0 >> 30)).wrapping_mul(0xBF58_476D_1CE4_E5B9);
        let mixed = (mixed ^ (mixed >> 27)).wrapping_mul(0x94D0_49BB_1331_11EB);
        mixed ^ (mixed >> 31)
    }

    /// A number below the limit, which is not 0.
    fn below(&mut self, limit: usize) -> usize {
        (self.next() % limit as u64) as usize
    }

    fn within(&mut self, range: RangeInclusive<usize>) -> usize {
        range.start() + self.below(range.end() - range.start() + 1)
    }

    fn percent(&mut self, chance: usize) -> bool {
        self.below(100) < chance
    }

    fn octet(&mut self) -> u8 {
        self.next() as u8
    }

    fn octets(&mut self, count: usize) -> Vec<u8> {
        (0..count).map(|_| self.octet()).collect()
    }

    fn pick<T: Copy>(&mut self, choices: &[T]) -> T {
        choices[self.below(choices.len())]
    }

    /// One of the choices, each as often as its weight says.
    fn weighted<T: Copy>(&mut self, choices: &[(usize, T)]) -> T {
        let mut left = self.below(choices.iter().map(|choice| choice.0).sum());
        for &(weight, choice) in choices {
            if left < weight {
                return choice;
            }
            left -= weight;
        }
        unreachable!("the weights are summed above")
    }
}

// The parts of a sheet.

const TRAILER: usize = 18;
const MOST_OCTETS: usize = 16_384;
const MOST_MARKS: usize = 64;
const MOST_CALLS: usize = 1_024;
const MOST_LOADS: usize = 4_096;
const READINGS: u8 = 1;
const PIECES: u8 = 2;
const LETTERS: [u8; 12] = *b"QSCTRBYAFPNM";

/// A sheet in parts, before its octets are put together.
struct Draft {
    book: Vec<u8>,
    to_hut: Vec<u8>,
    back: Vec<u8>,
    calls: Vec<u8>,
    /// What is added to each distance of the trailer; all 0 where the trailer is right.
    errors: [u32; 4],
    kind: u8,
    repeats: u8,
    /// How many octets a load of the book has, whatever the kind says.
    load_size: usize,
}

impl Draft {
    fn empty(kind: u8) -> Self {
        Draft {
            book: Vec::new(),
            to_hut: Vec::new(),
            back: Vec::new(),
            calls: Vec::new(),
            errors: [0; 4],
            kind,
            repeats: 0,
            load_size: if kind == PIECES { 19 } else { 4 },
        }
    }

    fn loads(&self) -> usize {
        self.book.len() / self.load_size
    }

    /// The distances of the trailer, without the errors.
    fn distances(&self) -> [u32; 4] {
        let calls = self.calls.len();
        let back = calls + self.back.len();
        let to_hut = back + self.to_hut.len();
        let book = to_hut + self.book.len();
        [book, to_hut, back, calls].map(|distance| distance as u32)
    }

    fn octets(&self) -> Vec<u8> {
        let mut octets = [&self.book[..], &self.to_hut, &self.back, &self.calls].concat();
        for (distance, error) in self.distances().into_iter().zip(self.errors) {
            octets.extend(distance.wrapping_add(error).to_be_bytes());
        }
        octets.extend([self.kind, self.repeats]);
        octets
    }

    /// The places of the letters in the calls.
    fn letter_places(&self) -> Vec<usize> {
        let mut places = Vec::new();
        let mut place = 0;
        while place < self.calls.len() {
            places.push(place);
            place += if self.calls[place] == b'Q' { 5 } else { 1 };
        }
        places
    }

    fn push(&mut self, call: Call) {
        self.calls.push(call.letter);
        if call.letter == b'Q' {
            self.calls.extend(call.start.to_be_bytes());
            self.calls.extend(call.count.to_be_bytes());
        }
    }
}

/// A call of a sheet; start and count matter for a request alone.
#[derive(Clone, Copy)]
struct Call {
    letter: u8,
    start: u16,
    count: u16,
}

impl Call {
    fn of_letter(letter: u8) -> Self {
        Call {
            letter,
            start: 0,
            count: 0,
        }
    }

    fn request(start: usize, count: usize) -> Self {
        Call {
            letter: b'Q',
            start: start as u16,
            count: count as u16,
        }
    }
}

/// The octets of a piece, with any number and body.
fn piece_octets(random: &mut Random, zoom: u8, column: u32, row: u32) -> Vec<u8> {
    let mut octets = vec![zoom];
    octets.extend(column.to_be_bytes());
    octets.extend(row.to_be_bytes());
    octets.extend(random.octets(10));
    octets
}

/// A piece inside its ranges, often at one of their ends.
fn good_piece(random: &mut Random) -> Vec<u8> {
    let any_zoom = random.below(21);
    let zoom = random.weighted(&[(1, 0), (2, 20), (5, any_zoom)]);
    let [column, row] = [(); 2].map(|()| {
        let any_place = random.below(1 << zoom);
        random.weighted(&[(1, 0), (2, (1 << zoom) - 1), (3, any_place)]) as u32
    });
    piece_octets(random, zoom as u8, column, row)
}

/// A piece with its zoom, its column or its row outside its range.
fn bad_piece(random: &mut Random) -> Vec<u8> {
    let zoom = random.below(21) as u8;
    let side = 1_u32 << zoom;
    let inside = random.below(side as usize) as u32;
    let outside = random.pick(&[
        side,
        side,
        side + 1,
        side | 0x0100_0000,
        0x8000_0000,
        u32::MAX,
    ]);
    let high_zoom = random.pick(&[21, 21, 22, 31, 32, 33, 64, 128, 255]);
    match random.below(3) {
        0 => piece_octets(random, high_zoom, inside, inside),
        1 => piece_octets(random, zoom, outside, inside),
        _ => piece_octets(random, zoom, inside, outside),
    }
}

/// A list of marks, with few or many losses and delays.
fn marks(random: &mut Random, most: usize) -> Vec<u8> {
    let (few, any) = (random.within(1..=most.min(8)), random.within(1..=most));
    let count = random.weighted(&[(3, 0), (5, few), (4, any), (2, most)]);
    let lost = random.pick(&[0, 5, 20, 50, 95]);
    let late = random.pick(&[0, 5, 20, 50, 95]);
    let mark = |random: &mut Random| match (random.percent(lost), random.percent(late)) {
        (true, _) => 1,
        (false, true) => 2,
        (false, false) => 0,
    };
    (0..count).map(|_| mark(random)).collect()
}

// A small model of the link, by which the generator knows which calls are due.

/// The places of the sender: SF, WA, SC, ET2, WT2.
#[derive(Clone, Copy, PartialEq)]
enum Mast {
    Send,
    Await,
    Confirm,
    Part,
    Meet,
}

/// The places of the hut's end: WF, SI, SA, RTS, NOK.
#[derive(Clone, Copy, PartialEq)]
enum Hut {
    Await,
    Tell,
    Reply,
    Again,
    Break,
}

/// What the model keeps of a frame.
#[derive(Clone, Copy, Default)]
struct Frame {
    last: bool,
    toggle: bool,
}

/// A channel: its marks to come, and the frame that waits with its mark.
struct Air {
    marks: VecDeque<u8>,
    waiting: Option<(Frame, u8)>,
}

/// What a poll brings.
enum Heard {
    Still,
    Lost,
    Arrived(Frame),
}

impl Air {
    fn new(marks: &[u8]) -> Self {
        Air {
            marks: marks.iter().copied().collect(),
            waiting: None,
        }
    }

    fn put(&mut self, frame: Frame) {
        self.waiting = Some((frame, self.marks.pop_front().unwrap_or(0)));
    }

    /// Takes the frame that waits, or leaves it with mark 0 where it has mark 2.
    fn poll(&mut self) -> Heard {
        match self.waiting.take() {
            Some((_, 1)) => Heard::Lost,
            Some((frame, 2)) => {
                self.waiting = Some((frame, 0));
                Heard::Still
            }
            Some((frame, _)) => Heard::Arrived(frame),
            None => Heard::Still,
        }
    }
}

/// A link over two channels, as far as it decides which calls are due.
struct Link {
    loads: usize,
    repeats: usize,
    mast: Mast,
    open: bool,
    armed: bool,
    lost: bool,
    toggle: bool,
    rest: usize,
    tries: usize,
    hut: Hut,
    fresh: bool,
    strict: bool,
    timer: bool,
    quiet: bool,
    expected: bool,
    held: Frame,
    to_hut: Air,
    back: Air,
}

impl Link {
    /// A link that has joined, over the book and the marks of a draft.
    fn of_draft(draft: &Draft) -> Self {
        Link {
            loads: draft.loads(),
            repeats: draft.repeats.into(),
            mast: Mast::Send,
            open: false,
            armed: false,
            lost: false,
            toggle: false,
            rest: 0,
            tries: 0,
            hut: Hut::Await,
            fresh: true,
            strict: false,
            timer: false,
            quiet: false,
            expected: false,
            held: Frame::default(),
            to_hut: Air::new(&draft.to_hut),
            back: Air::new(&draft.back),
        }
    }

    /// Whether a call of the letter can be accepted; for Q, with the right start and count.
    fn is_due(&self, letter: u8) -> bool {
        match letter {
            b'Q' => !self.open && self.loads > 0,
            b'S' => self.mast == Mast::Send && self.open && self.to_hut.waiting.is_none(),
            b'C' => self.to_hut.waiting.is_some(),
            b'T' => self.hut == Hut::Tell,
            b'R' => matches!(self.hut, Hut::Reply | Hut::Again) && self.back.waiting.is_none(),
            b'B' => self.back.waiting.is_some(),
            b'Y' => self.armed && self.lost,
            b'A' => self.mast == Mast::Send && self.open,
            b'F' => self.mast == Mast::Confirm,
            b'P' => self.mast == Mast::Part,
            b'N' => self.hut == Hut::Break,
            b'M' => self.hut == Hut::Await && self.quiet,
            _ => false,
        }
    }

    fn due_letters(&self) -> Vec<u8> {
        LETTERS
            .into_iter()
            .filter(|&letter| self.is_due(letter))
            .collect()
    }

    /// Makes a call, if it is due.
    fn make(&mut self, call: Call) {
        if !self.is_due(call.letter) {
            return;
        }
        match call.letter {
            b'Q' => self.request(call),
            b'S' => self.send(),
            b'C' => self.carry(),
            b'T' => self.tell(),
            b'R' => self.reply(),
            b'B' => self.take_back(),
            b'Y' => self.retry(),
            b'A' => self.mast = Mast::Confirm,
            b'F' => self.confirm(),
            b'P' => self.part(),
            b'N' => (self.hut, self.fresh, self.timer) = (Hut::Await, true, true),
            _ => (self.quiet, self.mast) = (false, Mast::Send),
        }
    }

    fn request(&mut self, call: Call) {
        let (start, count) = (usize::from(call.start), usize::from(call.count));
        if (1..=MOST_LOADS).contains(&count) && start + count <= self.loads {
            (self.rest, self.open) = (count, true);
        }
    }

    fn send(&mut self) {
        self.to_hut.put(Frame {
            last: self.rest == 1,
            toggle: self.toggle,
        });
        (self.mast, self.armed) = (Mast::Await, true);
        self.tries += 1;
    }

    fn carry(&mut self) {
        match self.to_hut.poll() {
            Heard::Still => {}
            Heard::Lost => self.lost = true,
            Heard::Arrived(_) if self.hut != Hut::Await => {}
            Heard::Arrived(frame) => {
                self.held = frame;
                if self.strict && frame.toggle != self.expected {
                    self.hut = Hut::Again;
                } else {
                    (self.hut, self.timer) = (Hut::Tell, false);
                }
            }
        }
    }

    fn tell(&mut self) {
        (self.hut, self.strict) = (Hut::Reply, true);
        self.fresh = self.held.last;
        self.expected = !self.held.toggle;
    }

    fn reply(&mut self) {
        self.timer |= self.hut == Hut::Reply;
        self.hut = Hut::Await;
        self.back.put(self.held);
    }

    fn take_back(&mut self) {
        match self.back.poll() {
            Heard::Still => {}
            Heard::Lost => self.lost = true,
            Heard::Arrived(_) => {
                if self.rest == 1 {
                    self.mast = Mast::Confirm;
                } else {
                    (self.mast, self.tries) = (Mast::Send, 0);
                }
                (self.toggle, self.armed) = (!self.toggle, false);
                self.rest = self.rest.saturating_sub(1);
            }
        }
    }

    fn retry(&mut self) {
        self.mast = if self.tries <= self.repeats {
            Mast::Send
        } else {
            Mast::Confirm
        };
        (self.armed, self.lost) = (false, false);
    }

    fn confirm(&mut self) {
        self.mast = if self.rest == 0 {
            Mast::Send
        } else {
            Mast::Part
        };
        (self.open, self.rest, self.tries) = (false, 0, 0);
    }

    fn part(&mut self) {
        (self.mast, self.toggle, self.quiet) = (Mast::Meet, !self.toggle, true);
        if self.timer {
            self.strict = false;
            if !self.fresh {
                (self.hut, self.timer) = (Hut::Break, false);
            }
        }
    }
}

// Well formed sheets.

/// How large the sheets are.
#[derive(Clone, Copy)]
struct Scale {
    loads: usize,
    marks: usize,
    calls: usize,
    /// Whether any sheet may have thousands of octets.
    long: bool,
}

/// The sheets of a run.
const WIDE: Scale = Scale {
    loads: 300,
    marks: MOST_MARKS,
    calls: MOST_CALLS,
    long: true,
};
/// The sheets of a table, which is stored.
const SMALL: Scale = Scale {
    loads: 8,
    marks: 12,
    calls: 40,
    long: false,
};

/// What one sheet is made from.
struct Maker {
    random: Random,
    scale: Scale,
    /// The number of the sheet; where a class has cases, it decides which of them comes.
    turn: usize,
}

impl Maker {
    fn kind(&mut self) -> u8 {
        self.random.pick(&[READINGS, READINGS, PIECES])
    }

    /// A draft with marks and repeats, and with that many loads.
    fn draft_of(&mut self, kind: u8, loads: usize) -> Draft {
        let mut draft = Draft::empty(kind);
        for _ in 0..loads {
            draft.book.extend(match kind {
                PIECES => good_piece(&mut self.random),
                _ => self.random.octets(4),
            });
        }
        draft.to_hut = marks(&mut self.random, self.scale.marks);
        draft.back = marks(&mut self.random, self.scale.marks);
        let any = self.random.within(0..=10) as u8;
        draft.repeats = self.random.weighted(&[(2, 0), (2, 1), (1, 10), (4, any)]);
        draft
    }

    /// A draft without calls.
    fn draft(&mut self) -> Draft {
        let kind = self.kind();
        let most = self.scale.loads;
        let (few, any) = (
            self.random.within(1..=most.min(12)),
            self.random.within(0..=most),
        );
        let loads = self
            .random
            .weighted(&[(1, 0), (16, few), (6, any), (1, most)]);
        self.draft_of(kind, loads)
    }

    fn call_count(&mut self) -> usize {
        let most = self.scale.calls;
        let few = self.random.within(0..=most.min(25));
        let some = self.random.within(0..=most.min(150));
        let any = self.random.within(0..=most);
        self.random
            .weighted(&[(4, few), (8, some), (3, any), (1, most)])
    }

    /// A whole draft whose calls are mostly due.
    fn due_draft(&mut self) -> Draft {
        let mut draft = self.draft();
        let count = self.call_count();
        add_due_calls(&mut draft, &mut self.random, count);
        draft
    }
}

/// A request that the book can serve, mostly of up to 8 loads. The book has loads.
fn good_request(random: &mut Random, loads: usize) -> Call {
    let (few, any) = (random.within(1..=loads.min(8)), random.within(1..=loads));
    let count = random.weighted(&[(7, few), (1, any), (1, 1)]);
    let any_start = random.within(0..=loads - count);
    Call::request(
        random.weighted(&[(2, 0), (2, loads - count), (4, any_start)]),
        count,
    )
}

/// A request with its start, its count or its end at a limit.
fn limit_request(random: &mut Random, loads: usize) -> Call {
    let near = [loads.saturating_sub(1), loads, loads + 1];
    let any = random.within(0..=loads);
    let start = random.pick(&[0, 1, near[0], near[1], near[2], any, any, 65_535]);
    let end = random.pick(&near);
    let to_end = end.saturating_sub(start);
    let count = random.pick(&[
        to_end, to_end, to_end, to_end, 0, 1, 4_095, 4_096, 4_097, 65_535,
    ]);
    Call::request(start, count)
}

/// Any of the calls, due or not.
fn any_call(random: &mut Random, loads: usize) -> Call {
    match random.pick(&LETTERS) {
        b'Q' if loads > 0 && random.percent(50) => good_request(random, loads),
        b'Q' => limit_request(random, loads),
        letter => Call::of_letter(letter),
    }
}

/// A call that is due, or in one of ten cases, and where none is due, any call.
fn next_call(random: &mut Random, link: &Link, abandons: usize) -> Call {
    let due = link.due_letters();
    if due.is_empty() || random.percent(10) {
        return any_call(random, link.loads);
    }
    let weigh = |letter| match letter {
        b'A' => (abandons, letter),
        b'Q' => (24, letter),
        _ => (60, letter),
    };
    let weighed: Vec<_> = due.into_iter().map(weigh).collect();
    match random.weighted(&weighed) {
        b'Q' => good_request(random, link.loads),
        letter => Call::of_letter(letter),
    }
}

/// Gives a draft as many calls more, mostly such as are due.
fn add_due_calls(draft: &mut Draft, random: &mut Random, count: usize) {
    let abandons = random.pick(&[1, 4, 40]);
    add_calls(draft, random, count, abandons);
}

/// The same, with how often an abandon that is due is made, beside 60 for most calls.
fn add_calls(draft: &mut Draft, random: &mut Random, count: usize, abandons: usize) {
    let mut link = Link::of_draft(draft);
    for _ in 0..count {
        let call = next_call(random, &link, abandons);
        link.make(call);
        draft.push(call);
    }
}

/// Class due: a sheet whose calls are mostly due.
fn due(maker: &mut Maker) -> Vec<u8> {
    maker.due_draft().octets()
}

/// Class lossy: one load is lost about as often as it may be sent, on its way or with its reply, for each number of repeats.
fn lossy(maker: &mut Maker) -> Vec<u8> {
    let kind = maker.kind();
    let mut draft = maker.draft_of(kind, 2);
    let random = &mut maker.random;
    let repeats = maker.turn % 11;
    let losses = repeats + random.pick(&[0, 1, 1, 2]);
    let in_k = random.within(0..=losses);
    let before = random.below(2);
    draft.repeats = repeats as u8;
    draft.to_hut = [vec![0; before], vec![1; in_k]].concat();
    draft.back = [vec![0; before], vec![1; losses - in_k]].concat();
    add_calls(&mut draft, random, 5 * losses + 15, 0);
    draft.octets()
}

/// Class any: a sheet whose calls are picked at random.
fn any(maker: &mut Maker) -> Vec<u8> {
    let mut draft = maker.draft();
    for _ in 0..maker.call_count() {
        let call = any_call(&mut maker.random, draft.loads());
        draft.push(call);
    }
    draft.octets()
}

/// Adds the calls that end an open message without sending its loads.
fn close(draft: &mut Draft, link: &mut Link) {
    while link.open {
        let Some(letter) = b"FPNMA".iter().find(|&&letter| link.is_due(letter)) else {
            return;
        };
        link.make(Call::of_letter(*letter));
        draft.push(Call::of_letter(*letter));
    }
}

/// Adds requests at their limits. Most messages are ended before the next request, some after their first loads.
fn add_limit_requests(draft: &mut Draft, random: &mut Random, count: usize) {
    let mut link = Link::of_draft(draft);
    for _ in 0..count {
        let request = limit_request(random, link.loads);
        link.make(request);
        draft.push(request);
        for _ in 0..random.pick(&[0, 0, 0, 8]) {
            let call = next_call(random, &link, 1);
            link.make(call);
            draft.push(call);
        }
        if random.percent(80) {
            close(draft, &mut link);
        }
    }
}

/// Class request: requests at their limits.
fn request(maker: &mut Maker) -> Vec<u8> {
    let mut draft = maker.draft();
    let count = maker.random.within(1..=maker.scale.calls.min(100) / 5);
    add_limit_requests(&mut draft, &mut maker.random, count);
    draft.octets()
}

// Damaged sheets.

/// Gives a wrong kind.
fn wrong_kind(draft: &mut Draft, random: &mut Random) {
    let any = random.within(3..=255) as u8;
    draft.kind = random.pick(&[0, 3, any, 255]);
}

/// Gives repeats that are too high.
fn wrong_repeats(draft: &mut Draft, random: &mut Random) {
    let any = random.within(11..=255) as u8;
    draft.repeats = random.pick(&[11, 12, any, 255]);
}

/// Adds small numbers to one or two distances.
fn nudge(draft: &mut Draft, random: &mut Random) {
    for _ in 0..random.within(1..=2) {
        let step = random.pick(&[1, 2, 3, 4, 5, 19, 256, 0x0001_0000, 0x0100_0000]);
        let place = random.below(4);
        let error = if random.percent(50) {
            step
        } else {
            0_u32.wrapping_sub(step)
        };
        draft.errors[place] = draft.errors[place].wrapping_add(error);
    }
}

/// Exchanges two distances.
fn exchange(draft: &mut Draft, random: &mut Random) {
    let distances = draft.distances();
    let (one, other) = random.pick(&[(0, 1), (1, 2), (2, 3), (0, 2), (1, 3), (0, 3)]);
    draft.errors[one] = distances[other].wrapping_sub(distances[one]);
    draft.errors[other] = distances[one].wrapping_sub(distances[other]);
}

/// Lets the lists begin elsewhere, in order, so that some are read as others.
fn move_lists(draft: &mut Draft, random: &mut Random) {
    let distances = draft.distances();
    let mut moved = [(); 3].map(|()| random.within(0..=distances[0] as usize) as u32);
    moved.sort_unstable_by(|one, other| other.cmp(one));
    for place in 1..4 {
        if random.percent(60) {
            draft.errors[place] = moved[place - 1].wrapping_sub(distances[place]);
        }
    }
}

/// Puts a mark above 2 somewhere into one of the lists, over another or as one more.
fn wrong_mark(draft: &mut Draft, random: &mut Random) {
    let any = random.within(3..=255) as u8;
    let mark = random.pick(&[3, 3, any, 255]);
    let list = if random.percent(50) {
        &mut draft.to_hut
    } else {
        &mut draft.back
    };
    if list.is_empty() || (list.len() < MOST_MARKS && random.percent(50)) {
        list.insert(random.below(list.len() + 1), mark);
    } else {
        let place = random.below(list.len());
        list[place] = mark;
    }
}

/// An octet that is the letter of no call, often one in lower case.
fn unknown_letter(random: &mut Random) -> u8 {
    let mut letter = random.pick(&LETTERS).to_ascii_lowercase();
    if random.percent(60) {
        letter = random.octet();
    }
    while LETTERS.contains(&letter) {
        letter = letter.wrapping_add(1);
    }
    letter
}

/// Puts an unknown letter over that of a call, or behind the calls where there is none.
fn wrong_letter(draft: &mut Draft, random: &mut Random) {
    let letter = unknown_letter(random);
    let places = draft.letter_places();
    if places.is_empty() {
        draft.calls.push(letter);
    } else {
        draft.calls[random.pick(&places)] = letter;
    }
}

/// Adds a request at the end whose operands are cut.
fn cut_operands(draft: &mut Draft, random: &mut Random) {
    draft.calls.push(b'Q');
    let kept = random.within(0..=3);
    draft.calls.extend(random.octets(kept));
}

/// Puts a piece outside its ranges over one of the book's, whose loads become pieces.
fn wrong_piece(draft: &mut Draft, random: &mut Random) {
    let loads = draft.loads().clamp(1, 200);
    draft.book = (0..loads).flat_map(|_| good_piece(random)).collect();
    draft.kind = PIECES;
    draft.load_size = 19;
    for _ in 0..random.within(1..=2) {
        let place = random.below(loads) * 19;
        draft.book.splice(place..place + 19, bad_piece(random));
    }
}

/// Adds octets to the book, or takes some, so that its last record is cut short.
fn cut_load(draft: &mut Draft, random: &mut Random) {
    let odd = random.within(1..=draft.load_size - 1);
    if draft.book.is_empty() || random.percent(50) {
        draft.book.extend(random.octets(odd));
    } else {
        draft.book.truncate(draft.book.len() - odd);
    }
}

/// A sheet whose calls are mostly due, damaged in a part.
fn with_damage(maker: &mut Maker, damage: fn(&mut Draft, &mut Random)) -> Vec<u8> {
    let mut draft = maker.due_draft();
    damage(&mut draft, &mut maker.random);
    draft.octets()
}

/// A place in the octets, often in the trailer.
fn any_place(random: &mut Random, octets: &[u8]) -> usize {
    let first = if random.percent(30) {
        octets.len().saturating_sub(TRAILER)
    } else {
        0
    };
    random.within(first..=octets.len() - 1)
}

/// Class changed: one to three octets changed.
fn changed(maker: &mut Maker) -> Vec<u8> {
    let mut octets = due(maker);
    let random = &mut maker.random;
    for _ in 0..random.within(1..=3) {
        let place = any_place(random, &octets);
        let (bit, any) = (1 << random.below(8), random.within(1..=255) as u8);
        octets[place] ^= random.pick(&[bit, any]);
    }
    octets
}

/// Class resized: one to three octets inserted or removed.
fn resized(maker: &mut Maker) -> Vec<u8> {
    let mut octets = due(maker);
    let random = &mut maker.random;
    let inserts = random.percent(50);
    for _ in 0..random.within(1..=3) {
        let place = any_place(random, &octets);
        if inserts {
            octets.insert(place, random.octet());
        } else {
            octets.remove(place);
        }
    }
    octets
}

/// Class truncated: cut at its end or at its front.
fn truncated(maker: &mut Maker) -> Vec<u8> {
    let mut octets = due(maker);
    let random = &mut maker.random;
    let (few, any) = (random.within(1..=TRAILER), random.within(1..=octets.len()));
    let cut = random.pick(&[few, any]);
    if random.percent(60) {
        octets.truncate(octets.len() - cut);
    } else {
        octets.drain(..cut);
    }
    octets
}

// Sheets at the limits.

/// Class short: 17 octets, 18, and fewer.
fn short(maker: &mut Maker) -> Vec<u8> {
    let kind = maker.kind();
    let mut octets = match maker.turn % 2 {
        0 => Draft::empty(kind).octets(),
        _ => due(maker),
    };
    let fewer = maker.random.within(0..=16);
    let kept = [17, 18, fewer, 0, 18, 17, 1][maker.turn % 7];
    octets.drain(..octets.len() - kept);
    octets
}

/// Fills the book so that the sheet has that many octets, or fewer by less than a load; K's marks take what is left.
fn fill(draft: &mut Draft, random: &mut Random, octets: usize) {
    let mut room = octets.saturating_sub(draft.octets().len());
    while room >= draft.load_size {
        draft.book.extend(match draft.load_size {
            4 => [(); 4].map(|()| random.within(65..=90) as u8).to_vec(),
            _ => good_piece(random),
        });
        room -= draft.load_size;
    }
    let marks_room = MOST_MARKS - draft.to_hut.len().min(MOST_MARKS);
    draft.to_hut.extend(vec![0; room.min(marks_room)]);
}

/// Class full: 16,384 octets, 16,385, and more, with requests at their limits; some with a book of as many readings as fit.
fn full(maker: &mut Maker) -> Vec<u8> {
    let kind = if maker.scale.long {
        maker.kind()
    } else {
        READINGS
    };
    let more = maker.random.within(1..=4_000);
    let size = MOST_OCTETS + [0, 1, 0, 0, 0, 2, more][maker.turn % 7];
    let mut draft = maker.draft_of(kind, 0);
    draft.to_hut.truncate(40);
    let random = &mut maker.random;
    match maker.turn % 4 {
        0 => {
            let loads = (size - draft.octets().len() - 5) / draft.load_size;
            draft.push(limit_request(random, loads));
        }
        1 => (draft.to_hut, draft.back, draft.calls) = (vec![], vec![], b"SC".to_vec()),
        _ => {
            let (room, count) = (random.pick(&[5, 100, 900, 3_000]), random.within(1..=12));
            fill(&mut draft, random, size - room);
            add_limit_requests(&mut draft, random, count);
        }
    }
    fill(&mut draft, random, size);
    draft.octets()
}

/// Class marks: 63 to 66 marks in each list, a few times with one that is too high, and many more.
fn many_marks(maker: &mut Maker) -> Vec<u8> {
    let mut draft = maker.due_draft();
    let random = &mut maker.random;
    let many = random.within(66..=200);
    let to_hut = [64, 65, 64, 65, 63, 0, many, 64, 0][maker.turn % 9];
    let back = [64, 64, 65, 65, 66, many, 0, 0, 64][maker.turn % 9];
    draft.to_hut = (0..to_hut).map(|_| random.below(3) as u8).collect();
    draft.back = (0..back).map(|_| random.below(3) as u8).collect();
    if random.percent(25) {
        wrong_mark(&mut draft, random);
    }
    draft.octets()
}

/// Class calls: 1,023 to 1,026 calls and many more; also with an unknown letter or a cut request about there.
fn many_calls(maker: &mut Maker) -> Vec<u8> {
    let mut draft = maker.draft();
    let random = &mut maker.random;
    let many = random.within(1_026..=1_200);
    let count = [1_024, 1_025, 1_023, 1_024, 1_024, 1_026, many][maker.turn % 7];
    add_due_calls(&mut draft, random, count);
    match maker.turn % 5 {
        2 => draft.calls.push(unknown_letter(random)),
        3 => cut_operands(&mut draft, random),
        4 => wrong_letter(&mut draft, random),
        _ => {}
    }
    draft.octets()
}

/// The pairs of refusals that class pair goes through.
#[rustfmt::skip]
const PAIRS: [(usize, usize); 20] = [
    (17, 18), (17, 19), (17, 20), (17, 21), (17, 22), (18, 18), (18, 19), (18, 20), (18, 21), (18, 22),
    (19, 19), (19, 20), (19, 21), (19, 22), (20, 20), (20, 21), (20, 22), (21, 21), (21, 22), (22, 22),
];

/// Damages a draft so that the number turns it down, if no other does; 17 makes it too long.
fn fault(draft: &mut Draft, random: &mut Random, number: usize) {
    match number {
        17 => {
            let size = MOST_OCTETS + random.within(1..=40);
            while draft.octets().len() < size {
                let octets = random.octets(64 * draft.load_size);
                draft.book.splice(0..0, octets);
            }
        }
        18 => random.pick(&[wrong_kind, wrong_repeats])(draft, random),
        19 => random.pick(&[nudge, exchange])(draft, random),
        20 if draft.load_size == 19 => random.pick(&[wrong_piece, cut_load])(draft, random),
        20 => cut_load(draft, random),
        21 if random.percent(20) => draft.back.resize(65, 1),
        21 => wrong_mark(draft, random),
        _ if random.percent(5) => add_due_calls(draft, random, MOST_CALLS + 1),
        _ => random.pick(&[wrong_letter, cut_operands])(draft, random),
    }
}

/// Class pair: two faults at once, in each pair of refusals.
fn pair(maker: &mut Maker) -> Vec<u8> {
    let (low, high) = PAIRS[maker.turn % PAIRS.len()];
    let mut draft = maker.due_draft();
    let random = &mut maker.random;
    fault(&mut draft, random, high);
    if low > 17 {
        fault(&mut draft, random, low);
    } else if maker.scale.long && random.percent(60) {
        fault(&mut draft, random, 17);
    } else {
        let mut octets = draft.octets();
        octets.drain(..octets.len() - random.within(0..=17));
        return octets;
    }
    draft.octets()
}

// Noise.

/// A length of noise, mostly short.
fn noise_length(maker: &mut Maker) -> usize {
    let (few, some, many) = (
        maker.random.below(40),
        maker.random.below(400),
        maker.random.below(17_000),
    );
    if maker.scale.long {
        maker.random.weighted(&[(4, few), (4, some), (1, many)])
    } else {
        few
    }
}

/// Class noise: any octets.
fn noise(maker: &mut Maker) -> Vec<u8> {
    let length = noise_length(maker);
    maker.random.octets(length)
}

/// Class noise-trailer: any octets and a good trailer.
fn noise_trailer(maker: &mut Maker) -> Vec<u8> {
    let mut draft = Draft::empty(maker.kind());
    let length = noise_length(maker);
    let random = &mut maker.random;
    draft.repeats = random.within(0..=10) as u8;
    draft.book = random.octets(length);
    move_lists(&mut draft, random);
    draft.octets()
}

/// Class noise-lists: a good trailer, and in each list any octets that its records may begin with, rarely others.
fn noise_lists(maker: &mut Maker) -> Vec<u8> {
    let mut draft = Draft::empty(maker.kind());
    let length = noise_length(maker).min(1_200);
    let random = &mut maker.random;
    draft.repeats = random.within(0..=10) as u8;
    let loads = random.below(4);
    draft.book = random.octets(loads * 4);
    let mark = |random: &mut Random| {
        if random.below(200) == 0 {
            random.octet()
        } else {
            random.below(3) as u8
        }
    };
    draft.to_hut = (0..random.below(20)).map(|_| mark(random)).collect();
    draft.back = (0..random.below(20)).map(|_| mark(random)).collect();
    for _ in 0..length {
        let letter = if random.below(400) == 0 {
            random.octet()
        } else {
            random.pick(&LETTERS)
        };
        draft.calls.push(letter);
    }
    draft.octets()
}

// The classes.

/// A class of sheets.
struct Class {
    name: &'static str,
    /// How often it comes in a run, beside the others.
    weight: usize,
    /// How many sheets of a table of 200 it has.
    share: usize,
    make: fn(&mut Maker) -> Vec<u8>,
}

const fn class(
    name: &'static str,
    weight: usize,
    share: usize,
    make: fn(&mut Maker) -> Vec<u8>,
) -> Class {
    Class {
        name,
        weight,
        share,
        make,
    }
}

const CLASSES: [Class; 25] = [
    class("due", 86, 59, due),
    class("lossy", 4, 11, lossy),
    class("any", 16, 14, any),
    class("request", 20, 20, request),
    class("changed", 6, 6, changed),
    class("resized", 4, 4, resized),
    class("truncated", 4, 4, truncated),
    class("nudged", 4, 4, |maker| with_damage(maker, nudge)),
    class("exchanged", 3, 3, |maker| with_damage(maker, exchange)),
    class("lists", 4, 4, |maker| with_damage(maker, move_lists)),
    class("kind", 3, 3, |maker| with_damage(maker, wrong_kind)),
    class("repeats", 3, 3, |maker| with_damage(maker, wrong_repeats)),
    class("mark", 4, 4, |maker| with_damage(maker, wrong_mark)),
    class("letter", 4, 4, |maker| with_damage(maker, wrong_letter)),
    class("operands", 4, 4, |maker| with_damage(maker, cut_operands)),
    class("piece", 4, 4, |maker| with_damage(maker, wrong_piece)),
    class("book", 4, 4, |maker| with_damage(maker, cut_load)),
    class("short", 2, 7, short),
    class("full", 4, 2, full),
    class("marks", 4, 4, many_marks),
    class("calls", 4, 2, many_calls),
    class("pair", 10, 20, pair),
    class("noise", 2, 3, noise),
    class("noise-trailer", 3, 3, noise_trailer),
    class("noise-lists", 4, 4, noise_lists),
];

/// A sheet that was made: its class by place, and its octets.
struct Sheet {
    class: usize,
    octets: Vec<u8>,
}

/// Sheet `index` of a run.
fn run_sheet(seed: u64, index: usize) -> Sheet {
    let mut random = Random::of_sheet(seed, index);
    let weights: Vec<_> = CLASSES
        .iter()
        .enumerate()
        .map(|(place, class)| (class.weight, place))
        .collect();
    let class = random.weighted(&weights);
    let mut maker = Maker {
        random,
        scale: WIDE,
        turn: index,
    };
    Sheet {
        class,
        octets: (CLASSES[class].make)(&mut maker),
    }
}

/// Sheet `index` of a table of `count`, in which the classes come one after another.
fn table_sheet(seed: u64, index: usize, count: usize) -> Sheet {
    let shares: usize = CLASSES.iter().map(|class| class.share).sum();
    let mut left = index * shares / count;
    let mut class = 0;
    while left >= CLASSES[class].share {
        left -= CLASSES[class].share;
        class += 1;
    }
    let mut maker = Maker {
        random: Random::of_sheet(seed, index),
        scale: SMALL,
        turn: left,
    };
    Sheet {
        class,
        octets: (CLASSES[class].make)(&mut maker),
    }
}

// Running the programs.

type Outcome<T> = Result<T, Box<dyn Error + Send + Sync>>;

/// What a program did with a sheet.
#[derive(PartialEq)]
struct Ran {
    printed: Vec<u8>,
    succeeded: bool,
}

/// Runs a program with the sheet on its standard input.
fn run_program(program: &str, sheet: &[u8]) -> Outcome<Ran> {
    let mut child = Command::new(program)
        .stdin(Stdio::piped())
        .stdout(Stdio::piped())
        .stderr(Stdio::null())
        .spawn()
        .map_err(|error| format!("{program}: {error}"))?;
    let mut input = child.stdin.take().ok_or("no standard input")?;
    // a program may end before it has read all; the longest sheet fits in a pipe
    match input.write_all(sheet) {
        Err(error) if error.kind() != ErrorKind::BrokenPipe => return Err(error.into()),
        _ => drop(input),
    }
    let output = child.wait_with_output()?;
    Ok(Ran {
        printed: output.stdout,
        succeeded: output.status.success(),
    })
}

/// What the sheets reached, by what one program printed of them.
#[derive(Default)]
struct Tally {
    /// By class and by `made`, `ran` or the number of the refusal.
    sheets: BTreeMap<(usize, String), usize>,
    /// By letter and the number of the answer.
    answers: BTreeMap<(String, usize), usize>,
    /// By letter and the word that an accepted call shows.
    words: BTreeMap<(String, String), usize>,
}

impl Tally {
    fn count(&mut self, class: usize, printed: &[u8]) {
        *self.sheets.entry((class, "made".into())).or_default() += 1;
        let text = String::from_utf8_lossy(printed);
        let fate = match text.strip_prefix("sheet ") {
            Some(refusal) => refusal.split(' ').next().unwrap_or_default().to_string(),
            None => "ran".to_string(),
        };
        if fate == "ran" {
            text.lines().for_each(|line| self.count_line(line));
        }
        *self.sheets.entry((class, fate)).or_default() += 1;
    }

    fn count_line(&mut self, line: &str) {
        let mut parts = line.split(' ');
        let letter = parts.next().unwrap_or_default().to_string();
        let answer = parts
            .next()
            .and_then(|number| number.parse().ok())
            .unwrap_or(usize::MAX);
        if let Some(word) = parts.next() {
            *self
                .words
                .entry((letter.clone(), word.to_string()))
                .or_default() += 1;
        }
        *self.answers.entry((letter, answer)).or_default() += 1;
    }

    fn add(&mut self, other: Tally) {
        add_counts(&mut self.sheets, other.sheets);
        add_counts(&mut self.answers, other.answers);
        add_counts(&mut self.words, other.words);
    }

    fn print(&self) {
        self.print_sheets();
        println!("\ncall: answer number and lines");
        print_rows(&self.answers);
        println!("\ncall: word and lines");
        print_rows(&self.words);
    }

    fn print_sheets(&self) {
        let columns = ["made", "ran", "17", "18", "19", "20", "21", "22"];
        let print_row = |name: &str, cells: [String; 8]| {
            println!(
                "{name:<14}{}",
                cells.map(|cell| format!("{cell:>7}")).concat()
            );
        };
        print_row("class", columns.map(str::to_string));
        for (place, class) in CLASSES.iter().enumerate() {
            print_row(
                class.name,
                columns.map(|column| self.sheets_of(place, column).to_string()),
            );
        }
        let total = |column| {
            (0..CLASSES.len())
                .map(|place| self.sheets_of(place, column))
                .sum::<usize>()
        };
        print_row("all", columns.map(|column| total(column).to_string()));
    }

    fn sheets_of(&self, class: usize, column: &str) -> usize {
        self.sheets
            .get(&(class, column.to_string()))
            .copied()
            .unwrap_or(0)
    }
}

fn add_counts<K: Ord>(all: &mut BTreeMap<K, usize>, more: BTreeMap<K, usize>) {
    for (key, count) in more {
        *all.entry(key).or_default() += count;
    }
}

/// Prints a row for each letter, in the order of the calls, with a count for each answer.
fn print_rows<A: std::fmt::Display>(counts: &BTreeMap<(String, A), usize>) {
    for letter in LETTERS.map(|letter| char::from(letter).to_string()) {
        let of_letter = counts.iter().filter(|((key, _), _)| *key == letter);
        let cells: Vec<_> = of_letter
            .map(|((_, answer), count)| format!("{answer}: {count}"))
            .collect();
        if !cells.is_empty() {
            println!("{letter}  {}", cells.join(", "));
        }
    }
}

/// A sheet of which the two programs differ.
struct Difference {
    index: usize,
    sheet: Sheet,
    ours: Ran,
    second: Ran,
}

impl Difference {
    /// The first line that differs, as each program printed it.
    fn first_line(&self) -> String {
        let texts = [&self.ours, &self.second].map(|ran| String::from_utf8_lossy(&ran.printed));
        let [ours, second] = texts
            .each_ref()
            .map(|text| text.split_inclusive('\n').collect::<Vec<_>>());
        let same = ours
            .iter()
            .zip(&second)
            .take_while(|(one, other)| one == other)
            .count();
        let shown = |lines: &[&str], ran: &Ran| {
            let line = lines
                .get(same)
                .map_or("nothing".to_string(), |line| format!("{line:?}"));
            if ran.succeeded {
                line
            } else {
                line + ", and failed"
            }
        };
        let (ours, second) = (shown(&ours, &self.ours), shown(&second, &self.second));
        format!("line {}: ours {ours}; second {second}", same + 1)
    }

    /// The sheet as text, such as tools/sheet-octets reads.
    fn text(&self, seed: u64) -> String {
        let name = CLASSES[self.sheet.class].name;
        let mut text = format!(
            "# Sheet {} of seed {seed}, class {name}.\n# {}\n",
            self.index,
            self.first_line()
        );
        for row in self.sheet.octets.chunks(32) {
            text.extend(row.iter().map(|octet| format!("{octet:02X}")));
            text.push('\n');
        }
        text
    }
}

/// What one thread found.
#[derive(Default)]
struct Findings {
    tally: Tally,
    differences: Vec<Difference>,
}

/// Compares the programs on the sheets whose numbers `next` hands out.
fn compare_some(
    seed: u64,
    count: usize,
    next: &AtomicUsize,
    programs: [&str; 2],
) -> Outcome<Findings> {
    let mut findings = Findings::default();
    loop {
        let index = next.fetch_add(1, Ordering::Relaxed);
        if index >= count {
            return Ok(findings);
        }
        let sheet = run_sheet(seed, index);
        let ours = run_program(programs[0], &sheet.octets)?;
        let second = run_program(programs[1], &sheet.octets)?;
        findings.tally.count(sheet.class, &ours.printed);
        if ours != second || !ours.succeeded {
            findings.differences.push(Difference {
                index,
                sheet,
                ours,
                second,
            });
        }
    }
}

/// Compares the programs on all sheets of a run, with a thread for each core.
fn compare_all(seed: u64, count: usize, programs: [&str; 2]) -> Outcome<Findings> {
    let next = AtomicUsize::new(0);
    let threads = thread::available_parallelism()?.get();
    let mut all = Findings::default();
    thread::scope(|scope| {
        let workers: Vec<_> = (0..threads)
            .map(|_| scope.spawn(|| compare_some(seed, count, &next, programs)))
            .collect();
        for worker in workers {
            let findings = worker.join().map_err(|_| "a thread failed")??;
            all.tally.add(findings.tally);
            all.differences.extend(findings.differences);
        }
        all.differences.sort_by_key(|difference| difference.index);
        Ok(all)
    })
}

// The commands.

/// Compares two programs, and says whether they agree.
fn run(seed: u64, count: usize, programs: [&str; 2], folder: &Path) -> Outcome<bool> {
    let findings = compare_all(seed, count, programs)?;
    findings.tally.print();
    println!();
    for (place, difference) in findings.differences.iter().enumerate() {
        let name = format!("difference-{}.sheet", place + 1);
        fs::write(folder.join(&name), difference.text(seed))?;
        println!("{name}: {}", difference.first_line());
    }
    println!(
        "{count} compared, {} differences",
        findings.differences.len()
    );
    Ok(findings.differences.is_empty())
}

/// Adds the table of a seed to the files stdin and stdout of the folder: to the first a line for each sheet, with its name
/// and its octets in hexadecimal, to the second the name and what the program prints of the sheet.
fn table(seed: u64, count: usize, program: &str, folder: &Path) -> Outcome<bool> {
    let mut stdin = appended(&folder.join("stdin"))?;
    let mut stdout = appended(&folder.join("stdout"))?;
    let mut numbers = [0; CLASSES.len()];
    for index in 0..count {
        let sheet = table_sheet(seed, index, count);
        let ran = run_program(program, &sheet.octets)?;
        if !ran.succeeded {
            return Err(format!("{program} failed at sheet {index}").into());
        }
        numbers[sheet.class] += 1;
        let name = format!("{}-{:03}", CLASSES[sheet.class].name, numbers[sheet.class]);
        let octets: String = sheet.octets.iter().map(|octet| format!("{octet:02X}")).collect();
        writeln!(stdin, "{name} {octets}")?;
        writeln!(stdout, "{name}")?;
        stdout.write_all(&ran.printed)?;
    }
    Ok(true)
}

/// A file to write behind what it has.
fn appended(path: &Path) -> Outcome<fs::File> {
    Ok(fs::OpenOptions::new().append(true).create(true).open(path)?)
}

/// Writes the sheets of a run as files of octets.
fn sheets(seed: u64, count: usize, folder: &Path) -> Outcome<bool> {
    fs::create_dir_all(folder)?;
    for index in 0..count {
        let sheet = run_sheet(seed, index);
        fs::write(
            folder.join(format!("{index:06}-{}", CLASSES[sheet.class].name)),
            sheet.octets,
        )?;
    }
    Ok(true)
}

/// Does what the arguments say.
fn command(arguments: &[&str]) -> Outcome<bool> {
    match *arguments {
        ["run", seed, count, ours, second] => run(seed.parse()?, count.parse()?, [ours, second], Path::new(".")),
        ["run", seed, count, ours, second, folder] => {
            run(seed.parse()?, count.parse()?, [ours, second], Path::new(folder))
        }
        ["table", seed, count, second, folder] => table(seed.parse()?, count.parse()?, second, Path::new(folder)),
        ["sheets", seed, count, folder] => sheets(seed.parse()?, count.parse()?, Path::new(folder)),
        _ => Err("give: run SEED COUNT OURS SECOND [FOLDER], table SEED COUNT SECOND FOLDER, or sheets SEED COUNT FOLDER".into()),
    }
}

fn main() -> ExitCode {
    let arguments: Vec<String> = std::env::args().skip(1).collect();
    let arguments: Vec<&str> = arguments.iter().map(String::as_str).collect();
    match command(&arguments) {
        Ok(true) => ExitCode::SUCCESS,
        Ok(false) => ExitCode::FAILURE,
        Err(error) => {
            eprintln!("compare: {error}");
            ExitCode::from(2)
        }
    }
}
