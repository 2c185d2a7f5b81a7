//! Queues of pending events, least key first.

use crate::model::{Event, Key};
use std::cmp::{Ordering, Reverse};
use std::collections::BinaryHeap;

pub trait EventQueue<P> {
    /// Adds an event, whose time is past that of the event taken last.
    fn push(&mut self, event: Event<P>);

    /// Takes the event of least key out.
    fn pop(&mut self) -> Option<Event<P>>;
}

/// An event that compares by its key.
struct ByKey<P>(Event<P>);

impl<P> ByKey<P> {
    #[inline(always)]
    fn key(&self) -> Key {
        self.0.key()
    }
}

impl<P> PartialEq for ByKey<P> {
    fn eq(&self, other: &Self) -> bool {
        self.key() == other.key()
    }
}

impl<P> Eq for ByKey<P> {}

impl<P> PartialOrd for ByKey<P> {
    #[inline(always)]
    fn partial_cmp(&self, other: &Self) -> Option<Ordering> {
        Some(self.cmp(other))
    }
}

impl<P> Ord for ByKey<P> {
    #[inline(always)]
    fn cmp(&self, other: &Self) -> Ordering {
        self.key().cmp(&other.key())
    }
}

/// The standard library's binary heap.
pub struct HeapQueue<P> {
    heap: BinaryHeap<Reverse<ByKey<P>>>,
}

impl<P> HeapQueue<P> {
    pub fn new() -> HeapQueue<P> {
        HeapQueue { heap: BinaryHeap::new() }
    }

    /// The tick of the event of least key.
    #[inline(always)]
    fn least_tick(&self) -> Option<u64> {
        self.heap.peek().map(|Reverse(event)| event.0.tick)
    }
}

impl<P> EventQueue<P> for HeapQueue<P> {
    #[inline(always)]
    fn push(&mut self, event: Event<P>) {
        self.heap.push(Reverse(ByKey(event)));
    }

    #[inline(always)]
    fn pop(&mut self) -> Option<Event<P>> {
        self.heap.pop().map(|Reverse(ByKey(event))| event)
    }
}

/// The number of the wheel's slots.
const SLOTS: u64 = 1 << 12;

/// A timing wheel: a slot for each of the next ticks, which is sorted when its tick comes, and a heap for later events.
pub struct WheelQueue<P> {
    now: u64,
    /// The events of the present tick, in the order of their keys; those before `next` have been taken.
    present: Vec<Event<P>>,
    next: usize,
    slots: Vec<Vec<Event<P>>>,
    /// The number of events in all slots.
    count: usize,
    later: HeapQueue<P>,
}

impl<P: Copy> WheelQueue<P> {
    pub fn new() -> WheelQueue<P> {
        let slots = (0..SLOTS).map(|_| Vec::new()).collect();
        WheelQueue { now: 0, present: Vec::new(), next: 0, slots, count: 0, later: HeapQueue::new() }
    }

    fn slot(&mut self, tick: u64) -> &mut Vec<Event<P>> {
        &mut self.slots[(tick % SLOTS) as usize]
    }

    /// Puts an event of the present tick where its key belongs: its time is past that of the event taken last.
    #[cold]
    fn push_present(&mut self, event: Event<P>) {
        let at = self.next + self.present[self.next..].partition_point(|other| other.key() < event.key());
        self.present.insert(at, event);
    }

    /// Goes on to the next tick, or where no slot has an event to the least tick of the later ones, if there is one.
    fn advance(&mut self) -> Option<()> {
        self.now = if self.count == 0 { self.later.least_tick()? } else { self.now + 1 };
        while self.later.least_tick().is_some_and(|tick| tick - self.now < SLOTS) {
            let event = self.later.pop()?;
            self.slot(event.tick).push(event);
            self.count += 1;
        }
        self.present.clear();
        self.next = 0;
        std::mem::swap(&mut self.present, &mut self.slots[(self.now % SLOTS) as usize]);
        self.count -= self.present.len();
        self.present.sort_unstable_by_key(|event| (event.origin, event.number));
        Some(())
    }
}

impl<P: Copy> EventQueue<P> for WheelQueue<P> {
    #[inline(always)]
    fn push(&mut self, event: Event<P>) {
        if event.tick == self.now {
            self.push_present(event);
        } else if event.tick - self.now < SLOTS {
            self.slot(event.tick).push(event);
            self.count += 1;
        } else {
            self.later.push(event);
        }
    }

    #[inline(always)]
    fn pop(&mut self) -> Option<Event<P>> {
        while self.next == self.present.len() {
            self.advance()?;
        }
        self.next += 1;
        Some(self.present[self.next - 1])
    }
}
