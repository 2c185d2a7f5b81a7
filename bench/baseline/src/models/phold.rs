//! PHOLD: each event schedules one new event after a drawn time, at this process or at a drawn one.

use crate::model::{Bits, Model, Outgoing};
use crate::words::WordStream;

pub struct Phold {
    /// The number of events that each process begins with.
    pub population: u32,
    /// How many events of a hundred go to a drawn process.
    pub remote: u64,
    /// The least time until the new event.
    pub lookahead: u64,
    /// The time beyond that is drawn below this.
    pub span: u64,
}

const IS_REMOTE: u32 = 0;

impl Model for Phold {
    /// The number of events executed.
    type State = u64;
    type Payload = ();

    fn start(&self, lp: u32, words: &mut WordStream, out: &mut Outgoing<()>) -> u64 {
        for _ in 0..self.population {
            let drawn = words.below(self.span);
            out.send(lp, self.lookahead + drawn, ());
        }
        0
    }

    #[inline(always)]
    fn forward(
        &self,
        lp: u32,
        _: (),
        count: &mut u64,
        bits: &mut Bits,
        words: &mut WordStream,
        out: &mut Outgoing<()>,
    ) {
        let mut dest = lp;
        if words.below(100) < self.remote {
            bits.set(IS_REMOTE);
            dest = words.below(u64::from(out.lps())) as u32;
        }
        let drawn = words.below(self.span);
        out.send(dest, self.lookahead + drawn, ());
        *count = count.wrapping_add(1);
        out.emit(2, *count);
    }

    fn reverse(&self, _: (), count: &mut u64, _: Bits) {
        *count = count.wrapping_sub(1);
    }
}
