//! Time Warp: each worker executes its processes ahead of the others, and takes events back where one comes too late.
//!
//! Inboxes are vectors behind locks. Global virtual time is found in rounds over shared memory: each worker reports the
//! least time of its pending events and of what it has sent since the round began.

use crate::model::{Bits, Config, Event, Key, Model, Origin, Outgoing, Record, When, MOST_SENDS_OF_EVENT};
use crate::text::RecordWriter;
use crate::words::WordStream;
use std::cmp::{Ordering, Reverse};
use std::collections::{BinaryHeap, HashSet, VecDeque};
use std::io::{self, Write};
use std::sync::atomic::{AtomicBool, AtomicU64, Ordering::SeqCst};
use std::sync::{Mutex, PoisonError};
use std::thread;

/// At most so many events are executed between two looks at the inbox.
const BATCH: u64 = 64;

/// A worker asks for a new round after executing so many events at least.
const LEAST_INTERVAL: u64 = 64;

/// A worker goes at most so many intervals of events past global virtual time.
const INTERVALS_AHEAD: u64 = 4;

/// Tells an event from one of equal key that was cancelled: the worker that made it, and a count that never goes back.
type Stamp = u64;

const BITS_OF_SERIAL: u32 = 56;

#[derive(Clone, Copy)]
struct Message<P> {
    event: Event<P>,
    stamp: Stamp,
    is_anti: bool,
}

impl<P> Message<P> {
    #[inline(always)]
    fn rank(&self) -> (Key, Stamp) {
        (self.event.key(), self.stamp)
    }
}

impl<P> PartialEq for Message<P> {
    fn eq(&self, other: &Self) -> bool {
        self.rank() == other.rank()
    }
}

impl<P> Eq for Message<P> {}

impl<P> PartialOrd for Message<P> {
    #[inline(always)]
    fn partial_cmp(&self, other: &Self) -> Option<Ordering> {
        Some(self.cmp(other))
    }
}

impl<P> Ord for Message<P> {
    #[inline(always)]
    fn cmp(&self, other: &Self) -> Ordering {
        self.rank().cmp(&other.rank())
    }
}

/// What an anti-message needs of an event that was sent.
#[derive(Clone, Copy)]
struct Sent {
    tick: u64,
    origin: Origin,
    number: u64,
    dest: u32,
    stamp: Stamp,
}

/// An event that was executed, and what takes it back.
struct Entry<P> {
    message: Message<P>,
    place: u64,
    number: u64,
    bits: Bits,
    /// The kind and value of its record.
    record: Option<(u32, u64)>,
    sent: [Option<Sent>; MOST_SENDS_OF_EVENT],
}

struct Process<M: Model> {
    state: M::State,
    number: u64,
    words: WordStream,
    past: VecDeque<Entry<M::Payload>>,
}

/// What a record has, and its event's key.
struct Row {
    key: Key,
    lp: u32,
    kind: u32,
    value: u64,
}

impl Row {
    #[inline(always)]
    fn record(&self) -> Record {
        Record { when: self.key.when(), lp: self.lp, kind: self.kind, value: self.value }
    }
}

struct Inbox<P> {
    has_mail: AtomicBool,
    mail: Mutex<Vec<Message<P>>>,
}

/// The round in which global virtual time is found, and what the rounds before it found.
struct Round {
    is_open: bool,
    reports: u32,
    least: Option<When>,
    global_virtual_time: When,
}

/// What the workers share.
struct Shared<P> {
    inboxes: Vec<Inbox<P>>,
    round_number: AtomicU64,
    round: Mutex<Round>,
    /// How many rounds have ended.
    ended: AtomicU64,
}

struct Worker<'a, M: Model> {
    model: &'a M,
    config: &'a Config,
    shared: &'a Shared<M::Payload>,
    workers: u32,
    id: u32,
    processes: Vec<Process<M>>,
    pending: BinaryHeap<Reverse<Message<M::Payload>>>,
    /// The stamps of pending events whose anti-message has come.
    annihilated: HashSet<Stamp>,
    /// Messages for its own processes that they have not received yet.
    own: VecDeque<Message<M::Payload>>,
    outboxes: Vec<Vec<Message<M::Payload>>>,
    out: Outgoing<M::Payload>,
    serial: u64,
    /// The round in which it reported last.
    reported: u64,
    /// The least time sent since the present round began, where it has not reported in it.
    least_sent: Option<When>,
    /// How many rounds had ended when it looked last.
    seen: u64,
    global_virtual_time: When,
    /// The number of entries in all pasts.
    uncommitted: u64,
    committed: Vec<Row>,
}

/// Simulates the model on that many threads, and writes the records when all have ended.
pub fn run<M: Model, W: Write>(
    model: &M,
    config: &Config,
    workers: u32,
    records: &mut RecordWriter<W>,
) -> io::Result<()> {
    let inbox = |_| Inbox { has_mail: AtomicBool::new(false), mail: Mutex::new(Vec::new()) };
    let shared = Shared {
        inboxes: (0..workers).map(inbox).collect(),
        round_number: AtomicU64::new(0),
        round: Mutex::new(Round { is_open: false, reports: 0, least: None, global_virtual_time: When::tick(0) }),
        ended: AtomicU64::new(0),
    };
    let committed: Vec<Vec<Row>> = thread::scope(|scope| {
        let shared = &shared;
        let start = |id| scope.spawn(move || Worker::new(model, config, shared, workers, id).run());
        let threads: Vec<_> = (0..workers).map(start).collect();
        threads.into_iter().map(|thread| thread.join().expect("a worker ends by itself")).collect()
    });
    write_in_order(committed, records)
}

/// Merges the rows of the workers, which are in order for each worker.
fn write_in_order<W: Write>(committed: Vec<Vec<Row>>, records: &mut RecordWriter<W>) -> io::Result<()> {
    let mut rest: Vec<&[Row]> = committed.iter().map(Vec::as_slice).collect();
    while let Some(least) = rest.iter_mut().filter(|rows| !rows.is_empty()).min_by_key(|rows| rows[0].key) {
        records.put(&least[0].record())?;
        *least = &least[1..];
    }
    Ok(())
}

/// The earlier of two times, where None is later than all.
fn earlier(one: Option<When>, other: Option<When>) -> Option<When> {
    one.into_iter().chain(other).min()
}

impl<'a, M: Model> Worker<'a, M> {
    /// The worker of the processes id, id + workers, id + 2 workers .. at time 0.
    fn new(model: &'a M, config: &'a Config, shared: &'a Shared<M::Payload>, workers: u32, id: u32) -> Self {
        let mut worker = Worker {
            model,
            config,
            shared,
            workers,
            id,
            processes: Vec::new(),
            pending: BinaryHeap::new(),
            annihilated: HashSet::new(),
            own: VecDeque::new(),
            outboxes: (0..workers).map(|_| Vec::new()).collect(),
            out: Outgoing::new(config),
            serial: 0,
            reported: 0,
            least_sent: None,
            seen: 0,
            global_virtual_time: When::tick(0),
            uncommitted: 0,
            committed: Vec::new(),
        };
        for lp in (id..config.lps).step_by(workers as usize) {
            worker.start(lp);
        }
        worker
    }

    /// Starts a process, which sends events to itself alone.
    fn start(&mut self, lp: u32) {
        let mut words = WordStream::new(self.config.seed, lp);
        self.out.begin(lp, When::tick(0), 0);
        let state = self.model.start(lp, &mut words, &mut self.out);
        for at in 0..self.out.sends().len() {
            let message = self.stamped(self.out.sends()[at]);
            self.pending.push(Reverse(message));
        }
        self.processes.push(Process { state, number: self.out.number(), words, past: VecDeque::new() });
    }

    #[inline(always)]
    fn stamped(&mut self, event: Event<M::Payload>) -> Message<M::Payload> {
        let stamp = (u64::from(self.id) << BITS_OF_SERIAL) | self.serial;
        self.serial += 1;
        Message { event, stamp, is_anti: false }
    }

    /// Runs to the end, and answers what it committed, in order.
    fn run(mut self) -> Vec<Row> {
        let interval = LEAST_INTERVAL.max(self.processes.len() as u64).max(self.pending.len() as u64);
        let mut since_round = 0;
        while self.global_virtual_time < When::tick(self.config.end) {
            let has_received = self.fetch();
            let executed = self.execute_batch(INTERVALS_AHEAD * interval);
            self.send();
            since_round += executed;
            let is_idle = executed == 0 && !has_received;
            if self.shared.round_number.load(SeqCst) != self.reported {
                self.report();
            } else if (since_round >= interval || is_idle) && self.open_round() {
                since_round = 0;
            }
            if is_idle && self.workers > 1 {
                thread::yield_now();
            }
            self.commit();
        }
        self.committed
    }

    #[inline(always)]
    fn route(&mut self, message: Message<M::Payload>) {
        let owner = message.event.dest % self.workers;
        if owner == self.id {
            self.own.push_back(message);
        } else {
            self.outboxes[owner as usize].push(message);
        }
    }

    /// Receives what other workers sent, and tells whether there was any.
    fn fetch(&mut self) -> bool {
        let inbox = &self.shared.inboxes[self.id as usize];
        if !inbox.has_mail.load(SeqCst) {
            return false;
        }
        let mail = {
            let mut mail = inbox.mail.lock().unwrap_or_else(PoisonError::into_inner);
            inbox.has_mail.store(false, SeqCst);
            std::mem::take(&mut *mail)
        };
        for message in mail {
            self.receive(message);
        }
        self.receive_own();
        true
    }

    fn receive_own(&mut self) {
        while let Some(message) = self.own.pop_front() {
            self.receive(message);
        }
    }

    /// Rolls the receiver back to before the message, which is then pending, or is annihilated with its anti-message.
    #[inline(always)]
    fn receive(&mut self, message: Message<M::Payload>) {
        let at = (message.event.dest / self.workers) as usize;
        while self.processes[at].past.back().is_some_and(|entry| entry.message >= message) {
            let undone = self.undo(at);
            if message.is_anti && undone.stamp == message.stamp {
                return;
            }
            self.pending.push(Reverse(undone));
        }
        if message.is_anti {
            self.annihilated.insert(message.stamp);
        } else {
            self.pending.push(Reverse(message));
        }
    }

    /// Takes the last event of the process back and sends an anti-message for each message that it sent.
    fn undo(&mut self, at: usize) -> Message<M::Payload> {
        let process = &mut self.processes[at];
        let entry = process.past.pop_back().expect("an event that was executed");
        self.model.reverse(entry.message.event.payload, &mut process.state, entry.bits);
        process.words.seek(entry.place);
        process.number = entry.number;
        self.uncommitted -= 1;
        for Sent { tick, origin, number, dest, stamp } in entry.sent.into_iter().flatten() {
            let event = Event { tick, origin, number, dest, payload: M::Payload::default() };
            self.route(Message { event, stamp, is_anti: true });
        }
        entry.message
    }

    /// The time of the least pending event, after those before it that were annihilated have gone.
    #[inline(always)]
    fn least_pending(&mut self) -> Option<When> {
        while let Some(Reverse(least)) = self.pending.peek() {
            if self.annihilated.is_empty() || !self.annihilated.remove(&least.stamp) {
                return Some(least.event.when());
            }
            self.pending.pop();
        }
        None
    }

    /// Executes some events, and answers how many. So many may be uncommitted, save that those at global virtual time
    /// itself always go on.
    fn execute_batch(&mut self, most_uncommitted: u64) -> u64 {
        for executed in 0..BATCH {
            match self.least_pending() {
                Some(when) if self.uncommitted < most_uncommitted || when <= self.global_virtual_time => self.execute(),
                _ => return executed,
            }
        }
        BATCH
    }

    /// Executes the least pending event.
    #[inline(always)]
    fn execute(&mut self) {
        let Some(Reverse(message)) = self.pending.pop() else {
            return;
        };
        let Event { dest, payload, .. } = message.event;
        let at = (dest / self.workers) as usize;
        let process = &mut self.processes[at];
        let (place, number) = (process.words.place(), process.number);
        let mut bits = Bits::default();
        self.out.begin(dest, message.event.when(), number);
        self.model.forward(dest, payload, &mut process.state, &mut bits, &mut process.words, &mut self.out);
        process.number = self.out.number();
        let record = self.out.record().map(|record| (record.kind, record.value));
        let mut sent = [None; MOST_SENDS_OF_EVENT];
        for (at, kept) in sent.iter_mut().enumerate().take(self.out.sends().len()) {
            let message = self.stamped(self.out.sends()[at]);
            let Event { tick, origin, number, dest, .. } = message.event;
            *kept = Some(Sent { tick, origin, number, dest, stamp: message.stamp });
            self.route(message);
        }
        self.processes[at].past.push_back(Entry { message, place, number, bits, record, sent });
        self.uncommitted += 1;
        self.receive_own();
    }

    /// Puts what is for other workers into their inboxes.
    fn send(&mut self) {
        for (outbox, inbox) in self.outboxes.iter_mut().zip(&self.shared.inboxes) {
            let Some(least) = outbox.iter().map(|message| message.event.when()).min() else {
                continue;
            };
            inbox.mail.lock().unwrap_or_else(PoisonError::into_inner).append(outbox);
            inbox.has_mail.store(true, SeqCst);
            if self.shared.round_number.load(SeqCst) != self.reported {
                self.least_sent = earlier(self.least_sent, Some(least));
            }
        }
    }

    /// Opens a round, where none is open.
    fn open_round(&mut self) -> bool {
        let mut round = self.shared.round.lock().unwrap_or_else(PoisonError::into_inner);
        if round.is_open || self.shared.round_number.load(SeqCst) != self.reported {
            return false;
        }
        *round = Round { is_open: true, reports: 0, least: None, ..*round };
        self.shared.round_number.fetch_add(1, SeqCst);
        true
    }

    /// Reports in the open round. The last to report makes the least of all reports global virtual time.
    fn report(&mut self) {
        self.fetch();
        self.send();
        let least = earlier(self.least_pending(), self.least_sent.take());
        let mut round = self.shared.round.lock().unwrap_or_else(PoisonError::into_inner);
        self.reported = self.shared.round_number.load(SeqCst);
        round.least = earlier(round.least, least);
        round.reports += 1;
        if round.reports == self.workers {
            round.is_open = false;
            round.global_virtual_time = round.least.unwrap_or(When::tick(self.config.end));
            self.shared.ended.fetch_add(1, SeqCst);
        }
    }

    /// Commits what was executed before global virtual time, and frees its entries.
    fn commit(&mut self) {
        let ended = self.shared.ended.load(SeqCst);
        if ended == self.seen {
            return;
        }
        self.seen = ended;
        let floor = self.shared.round.lock().unwrap_or_else(PoisonError::into_inner).global_virtual_time;
        if floor <= self.global_virtual_time {
            return;
        }
        self.global_virtual_time = floor;
        let first = self.committed.len();
        for process in &mut self.processes {
            while process.past.front().is_some_and(|entry| entry.message.event.when() < floor) {
                let entry = process.past.pop_front().expect("the entry just seen");
                self.uncommitted -= 1;
                let event = &entry.message.event;
                let row = |(kind, value)| Row { key: event.key(), lp: event.dest, kind, value };
                self.committed.extend(entry.record.map(row));
            }
        }
        self.committed[first..].sort_unstable_by_key(|row| row.key);
    }
}
