//! Tokens that hop from process to process.

use crate::model::{Bits, Model, Outgoing};
use crate::words::WordStream;

pub struct Hop {
    /// How often each token hops.
    pub hops: u32,
    /// How many processes further a token hops.
    pub stride: u32,
    /// The ticks that a hop takes.
    pub delay: u64,
    /// By how much the priority rises at a hop that takes no tick: at most 255, and 0 where every hop takes its ticks.
    pub rise: u32,
}

#[derive(Clone, Copy, Default)]
pub struct Token {
    tag: u32,
    hops_left: u32,
}

impl Model for Hop {
    type State = u64;
    type Payload = Token;

    fn start(&self, lp: u32, _: &mut WordStream, out: &mut Outgoing<Token>) -> u64 {
        out.send(lp, u64::from(lp) + 1, Token { tag: lp + 1, hops_left: self.hops });
        0
    }

    #[inline(always)]
    fn forward(
        &self,
        lp: u32,
        token: Token,
        sum: &mut u64,
        _: &mut Bits,
        _: &mut WordStream,
        out: &mut Outgoing<Token>,
    ) {
        *sum = sum.rotate_left(8) ^ u64::from(token.tag);
        out.emit(1, *sum);
        if token.hops_left != 0 {
            let dest = (lp + self.stride) % out.lps();
            let token = Token { hops_left: token.hops_left - 1, ..token };
            match u8::try_from(u32::from(out.now().priority) + self.rise) {
                Ok(priority) if self.rise != 0 => out.send_with(dest, 0, priority, token),
                _ => out.send(dest, self.delay, token),
            }
        }
    }

    fn reverse(&self, token: Token, sum: &mut u64, _: Bits) {
        *sum = (*sum ^ u64::from(token.tag)).rotate_right(8);
    }
}
