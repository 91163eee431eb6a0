//! Connections in memory.

use arrayvec::ArrayVec;
use judy_many::{Accept, Got, How, Network, Put, Question, Queue, Unread};
use judy_model::Name;
use judy_stream::{Page, Pull, Push, Sink, Source, Tape};

/// The most bytes that a connection takes.
pub const PAGE_LIMIT: usize = 65536;

/// The most bytes of the list of what was asked.
pub const ASKED_LIMIT: usize = 65536;

/// The most bytes that are reported.
pub const REPORTED_LIMIT: usize = 16384;

/// After this many waits the system fails, so that each test ends.
const WAITS_LIMIT: usize = 20_000;

// A segment with this many bytes is full.
pub const SEGMENT_LIMIT: u64 = 67_108_864;

/// A connection that comes: what it gives and takes.
#[derive(Drop)]
pub struct Script<'a> {
    /// What it gives.
    pub tape: Tape<'a>,
    /// How many reads find bytes or the end. Later ones find that nothing has come.
    pub reads: usize,
    /// What it took.
    pub page: Box<Page<PAGE_LIMIT>>,
}

/// What an accept finds.
#[derive(Clone, Copy, Debug, PartialEq, Eq)]
pub enum Offer {
    /// The next connection, if one is left.
    Next,
    /// No connection, for now.
    Nothing,
    /// A connection that cannot be accepted now.
    Later,
    /// A broken listener.
    Fault,
}

/// A connection, by its place.
#[derive(Drop)]
pub struct Seat {
    id: u64,
    at: usize,
}

/// Connections that come one after another. The n-th wait says that the clients in the n-th list of
/// slots became ready, in this order; after the last list each wait says that all are. The n-th accept
/// finds the n-th offer, and after the last one the next connection. The n-th question for the time
/// has the n-th answer, and after the last one that one again.
///
/// What was asked is kept as text: `|` a wait without limit, `:` one of at most a second, `.` one
/// that does not wait; `x` an accept that failed; and with the number of the connection `a` accepted,
/// `r` read, `w` written, `c` closed, and why (`Q` quit, `E` end, `F` fault, `I` idle, `O` too long,
/// `M` memory, `G` gone, `K` kicked). `?` is a question for the status, `!` one that the server ends, `^`
/// one that the table is read again, `*` one that the connections of a tenant are closed, `t` a read of the table, `=` a report, and `-` a reply. Of the journal, `b`
/// is a file that was made, `k` bytes that were kept, `s` a sync, and `z` one of these that failed; `y`, with the
/// number of the connection, says that it takes the records of a tenant, and `n` that it does not.
#[derive(Drop)]
pub struct Stage<'a> {
    /// The connections.
    pub scripts: Vec<Script<'a>>,
    /// Which slots each wait tells of.
    pub order: &'a [&'a [usize]],
    /// What the accepts find.
    pub offers: &'a [Offer],
    /// The answers of the clock.
    pub times: &'a [Option<u64>],
    /// The questions on the status socket, one a round.
    pub questions: &'a [Question],
    /// The tenant that each question to close connections names.
    pub name: &'a [u8],
    /// The tables, one a read. After the last one the file cannot be read.
    pub tables: &'a [&'a [u8]],
    /// What was reported or replied, one text after another.
    pub reported: ArrayVec<u8, REPORTED_LIMIT>,
    /// What the operator was told, each line with a line feed.
    pub warned: ArrayVec<u8, REPORTED_LIMIT>,
    /// What was kept in the journal, one text after another.
    pub journal: ArrayVec<u8, ASKED_LIMIT>,
    /// Which of the calls for the journal fails. None fails if it is past the last one.
    pub fails_at: usize,
    /// The tenant whose records the journal does not take. Empty: it takes all.
    pub full: &'a [u8],
    /// How often it does not take them; after that it does.
    pub refusals: usize,
    journaled: usize,
    asked: ArrayVec<u8, ASKED_LIMIT>,
    waits: usize,
    offered: usize,
    told: usize,
    come: usize,
    questioned: usize,
    tabled: usize,
}

impl<'a> Stage<'a> {
    /// The connections, none of which has come. All are ready at each wait.
    pub fn new(scripts: Vec<Script<'a>>) -> Stage<'a> {
        Stage {
            scripts,
            order: &[],
            offers: &[],
            times: &[],
            questions: &[],
            name: &[],
            tables: &[],
            reported: ArrayVec::new(),
            warned: ArrayVec::new(),
            journal: ArrayVec::new(),
            fails_at: usize::MAX,
            full: &[],
            refusals: usize::MAX,
            journaled: 0,
            asked: ArrayVec::new(),
            waits: 0,
            offered: 0,
            told: 0,
            come: 0,
            questioned: 0,
            tabled: 0,
        }
    }

    /// What was asked, in order.
    pub fn asked(&self) -> &[u8] {
        self.asked.as_slice()
    }

    /// Notes what was asked.
    fn note(&mut self, what: u8) {
        let _fits = self.asked.try_push(what);
    }

    /// The same, with the number of a connection.
    fn note_of(&mut self, what: u8, at: usize) {
        self.note(what);
        self.note(b'0' + (at % 10) as u8);
    }

    /// Notes a call for the journal. False if it fails.
    fn journal(&mut self, what: u8) -> bool {
        let n = self.journaled;
        self.journaled = n.saturating_add(1);
        if n == self.fails_at {
            self.note(b'z');
            return false;
        }
        self.note(what);
        true
    }

    /// What the next accept finds.
    fn offer(&mut self) -> Offer {
        if self.offered >= self.offers.len() {
            return Offer::Next;
        }
        let offer = self.offers[self.offered];
        self.offered += 1;
        offer
    }
}

/// The letter of a reason.
fn letter(how: How) -> u8 {
    match how {
        How::Quit => b'Q',
        How::End => b'E',
        How::Fault => b'F',
        How::Login => b'L',
        How::Idle => b'I',
        How::Over => b'O',
        How::Memory => b'M',
        How::Gone => b'G',
        How::Kicked => b'K',
    }
}

/// The letter of a wait.
fn wait_letter(time: Option<u32>) -> u8 {
    match time {
        None => b'|',
        Some(0) => b'.',
        Some(_) => b':',
    }
}

/// These slots became ready, in this order.
fn mark(queue: &mut Queue, slots: &[usize]) {
    for slot in slots {
        queue.mark_ready(*slot);
    }
}

/// This many slots became ready, from the first on.
fn mark_all(queue: &mut Queue, count: usize) {
    for slot in 0..count {
        queue.mark_ready(slot);
    }
}

impl<'a> Network for Stage<'a> {
    type Connection = Seat;

    ghost log = { ? };

    ghost number = { ? };

    fn accept(&mut self, id: u64, _slot: usize) -> Accept<Seat> {
        match self.offer() {
            Offer::Next => {}
            Offer::Nothing => return Accept::Nothing,
            Offer::Later => {
                self.note(b'x');
                return Accept::Later;
            }
            Offer::Fault => return Accept::Fault,
        }
        if self.come >= self.scripts.len() {
            return Accept::Nothing;
        }
        let at = self.come;
        self.come += 1;
        self.note_of(b'a', at);
        Accept::Came(Seat { id, at })
    }

    fn wait(&mut self, time: Option<u32>, queue: &mut Queue) -> Option<bool> {
        self.note(wait_letter(time));
        let n = self.waits;
        if n >= WAITS_LIMIT {
            return None;
        }
        self.waits += 1;
        if n < self.order.len() {
            mark(queue, self.order[n]);
        } else {
            mark_all(queue, self.scripts.len());
        }
        Some(true)
    }

    fn read(&mut self, connection: &mut Seat, buf: &mut [u8]) -> Got {
        let at = connection.at;
        self.note_of(b'r', at);
        if at >= self.scripts.len() {
            return Got::Fault;
        }
        if self.scripts[at].reads == 0 {
            return Got::Nothing;
        }
        self.scripts[at].reads -= 1;
        match self.scripts[at].tape.pull(buf) {
            Pull::Bytes(n) => Got::Bytes(n),
            Pull::End => Got::End,
            Pull::Fault => Got::Fault,
        }
    }

    fn write(&mut self, connection: &mut Seat, bytes: &[u8]) -> Put {
        let at = connection.at;
        self.note_of(b'w', at);
        if at >= self.scripts.len() {
            return Put::Fault;
        }
        match self.scripts[at].page.push(bytes) {
            Push::Took(n) => Put::Took(n),
            Push::Fault => Put::Fault,
        }
    }

    fn close(&mut self, connection: &mut Seat, how: How) {
        self.note_of(b'c', connection.at);
        self.note(letter(how));
    }

    fn seconds(&mut self) -> Option<u64> {
        if self.times.is_empty() {
            return Some(0);
        }
        let n = self.told.min(self.times.len() - 1);
        self.told = n + 1;
        self.times[n]
    }

    fn is_full(&self, size: u64) -> bool {
        size >= SEGMENT_LIMIT
    }

    fn ask(&mut self) -> Question {
        let n = self.questioned;
        if n >= self.questions.len() {
            return Question::Nothing;
        }
        self.questioned = n + 1;
        let question = self.questions[n];
        match question {
            Question::Nothing => {}
            Question::Status => self.note(b'?'),
            Question::Stop => self.note(b'!'),
            Question::Reload => self.note(b'^'),
            Question::Kick => self.note(b'*'),
        }
        question
    }

    fn report(&mut self, text: &[u8]) {
        self.note(b'=');
        let _fits = self.reported.try_extend_from_slice(text);
    }

    fn warn(&mut self, text: &[u8]) {
        let _fits = self.warned.try_extend_from_slice(text);
        let _fits = self.warned.try_extend_from_slice(b"\n");
    }

    fn table(&mut self, text: &mut Vec<u8>) -> Result<(), Unread> {
        self.note(b't');
        let n = self.tabled;
        if n >= self.tables.len() {
            return Err(Unread::File);
        }
        self.tabled = n + 1;
        match text.extend_from_slice(self.tables[n]) {
            Ok(()) => Ok(()),
            Err(_) => Err(Unread::Memory),
        }
    }

    fn named(&mut self) -> Name {
        match Name::read(self.name) {
            Some(name) => name,
            None => Name::of(b""),
        }
    }

    fn reply(&mut self, text: &[u8]) {
        self.note(b'-');
        let _fits = self.reported.try_extend_from_slice(text);
    }

    fn takes(&mut self, connection: &Seat, tenant: &[u8], _limit: Option<u64>) -> bool {
        let refused = tenant == self.full && self.refusals > 0;
        if refused {
            self.refusals -= 1;
        }
        self.note_of(if refused { b'n' } else { b'y' }, connection.at);
        !refused
    }

    fn begin(&mut self, _segment: u64) -> bool {
        self.journal(b'b')
    }

    fn keep(&mut self, bytes: &[u8]) -> bool {
        if !self.journal(b'k') {
            return false;
        }
        let _fits = self.journal.try_extend_from_slice(bytes);
        true
    }

    fn sync(&mut self) -> bool {
        self.journal(b's')
    }
}
