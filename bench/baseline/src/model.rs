//! What a model is: handlers that change the state of one logical process, and what they send and record.

use crate::words::WordStream;

/// At most so many sends of one handler.
pub const MOST_SENDS: usize = 16;

/// At most so many sends of one event: only the start of a process sends more.
pub const MOST_SENDS_OF_EVENT: usize = 2;

/// What a run is about, beside its model.
pub struct Config {
    /// The number of logical processes.
    pub lps: u32,
    /// Only events before this tick are executed.
    pub end: u64,
    /// The seed of all random words.
    pub seed: u64,
}

/// A virtual time: a tick, and the priority within it. The lower priority comes first.
#[derive(Clone, Copy, Default, PartialEq, Eq, PartialOrd, Ord)]
pub struct When {
    pub tick: u64,
    pub priority: u8,
}

impl When {
    /// The tick itself, which is before all that has a higher priority.
    pub const fn tick(tick: u64) -> When {
        When { tick, priority: 0 }
    }
}

/// A priority and the process that sent, in one number whose order is theirs: there are fewer than 2^24 processes.
#[derive(Clone, Copy, Default, PartialEq, Eq, PartialOrd, Ord)]
pub struct Origin(u32);

const BITS_OF_SOURCE: u32 = 24;

impl Origin {
    #[inline(always)]
    pub fn new(priority: u8, source: u32) -> Origin {
        Origin(u32::from(priority) << BITS_OF_SOURCE | source)
    }

    #[inline(always)]
    pub fn priority(self) -> u8 {
        (self.0 >> BITS_OF_SOURCE) as u8
    }
}

/// Events are executed in the order of their keys: by receive time (tick, then priority), then by the process that sent
/// the event, then by that process's send number.
#[derive(Clone, Copy, Default, PartialEq, Eq, PartialOrd, Ord)]
pub struct Key {
    pub tick: u64,
    pub origin: Origin,
    pub number: u64,
}

impl Key {
    #[inline(always)]
    pub fn when(&self) -> When {
        When { tick: self.tick, priority: self.origin.priority() }
    }
}

/// An event: its key, its receiver and what it carries. The key's parts stand here one by one, which takes less room.
#[derive(Clone, Copy, Default)]
pub struct Event<P> {
    pub tick: u64,
    pub origin: Origin,
    pub number: u64,
    pub dest: u32,
    pub payload: P,
}

impl<P> Event<P> {
    #[inline(always)]
    pub fn key(&self) -> Key {
        Key { tick: self.tick, origin: self.origin, number: self.number }
    }

    #[inline(always)]
    pub fn when(&self) -> When {
        self.key().when()
    }
}

#[derive(Clone, Copy, Default)]
pub struct Record {
    pub when: When,
    pub lp: u32,
    pub kind: u32,
    pub value: u64,
}

/// The flags that a forward handler leaves for its reverse handler.
#[derive(Clone, Copy, Default)]
pub struct Bits(u32);

impl Bits {
    pub fn set(&mut self, at: u32) {
        self.0 |= 1 << at;
    }

    pub fn get(self, at: u32) -> bool {
        (self.0 >> at) & 1 == 1
    }
}

/// What one handler sends and records. One value serves all handlers of a worker in turn.
pub struct Outgoing<P> {
    lps: u32,
    end: u64,
    lp: u32,
    now: When,
    number: u64,
    sends: [Event<P>; MOST_SENDS],
    sent: usize,
    record: Option<Record>,
}

impl<P: Copy + Default> Outgoing<P> {
    pub fn new(config: &Config) -> Outgoing<P> {
        Outgoing {
            lps: config.lps,
            end: config.end,
            lp: 0,
            now: When::tick(0),
            number: 0,
            sends: [Event::default(); MOST_SENDS],
            sent: 0,
            record: None,
        }
    }

    /// Makes it ready for a handler of the process, whose next send has that number.
    #[inline(always)]
    pub fn begin(&mut self, lp: u32, now: When, number: u64) {
        self.lp = lp;
        self.now = now;
        self.number = number;
        self.sent = 0;
        self.record = None;
    }

    /// The number of logical processes.
    #[inline(always)]
    pub fn lps(&self) -> u32 {
        self.lps
    }

    /// The time of the event that is executed.
    #[inline(always)]
    pub fn now(&self) -> When {
        self.now
    }

    /// Sends an event with priority 0, after a delay that is not 0.
    #[inline(always)]
    pub fn send(&mut self, dest: u32, delay: u64, payload: P) {
        self.send_with(dest, delay, 0, payload);
    }

    /// Sends an event, whose time is later than now. One at or past the end takes its number, and is not sent.
    #[inline(always)]
    pub fn send_with(&mut self, dest: u32, delay: u64, priority: u8, payload: P) {
        let number = self.number;
        self.number += 1;
        if delay < self.end - self.now.tick {
            let (tick, origin) = (self.now.tick + delay, Origin::new(priority, self.lp));
            self.sends[self.sent] = Event { tick, origin, number, dest, payload };
            self.sent += 1;
        }
    }

    /// Makes the handler's record: an event of these models makes at most one.
    #[inline(always)]
    pub fn emit(&mut self, kind: u32, value: u64) {
        self.record = Some(Record { when: self.now, lp: self.lp, kind, value });
    }

    /// The number of the process's next send.
    #[inline(always)]
    pub fn number(&self) -> u64 {
        self.number
    }

    #[inline(always)]
    pub fn sends(&self) -> &[Event<P>] {
        &self.sends[..self.sent]
    }

    #[inline(always)]
    pub fn record(&self) -> Option<Record> {
        self.record
    }
}

pub trait Model: Sync {
    type State: Send;
    type Payload: Copy + Default + Send;

    /// The state of a process at time 0.
    fn start(&self, lp: u32, words: &mut WordStream, out: &mut Outgoing<Self::Payload>) -> Self::State;

    /// Executes an event.
    fn forward(
        &self,
        lp: u32,
        payload: Self::Payload,
        state: &mut Self::State,
        bits: &mut Bits,
        words: &mut WordStream,
        out: &mut Outgoing<Self::Payload>,
    );

    /// Takes the event that was executed last back: the state is as before it.
    fn reverse(&self, payload: Self::Payload, state: &mut Self::State, bits: Bits);
}
