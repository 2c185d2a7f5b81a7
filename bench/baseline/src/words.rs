//! Random words: the ChaCha block function of RFC 8439 with 8 rounds, with a counter and a stream of 64 bits each, as
//! the crate `rand_chacha` has it.

type Row = [u32; 4];

/// The words "expand 32-byte k".
const CONSTANTS: Row = [0x6170_7865, 0x3320_646e, 0x7962_2d32, 0x6b20_6574];

const WORDS_OF_BLOCK: u64 = 16;

#[inline(always)]
fn add(x: Row, y: Row) -> Row {
    std::array::from_fn(|i| x[i].wrapping_add(y[i]))
}

#[inline(always)]
fn xor_rotate(x: Row, y: Row, left: u32) -> Row {
    std::array::from_fn(|i| (x[i] ^ y[i]).rotate_left(left))
}

/// Column i of the result is column i + left.
#[inline(always)]
fn turn(x: Row, left: usize) -> Row {
    std::array::from_fn(|i| x[(i + left) % 4])
}

/// The quarter round on all four columns at once.
#[inline(always)]
fn quarter_rounds(a: &mut Row, b: &mut Row, c: &mut Row, d: &mut Row) {
    *a = add(*a, *b);
    *d = xor_rotate(*d, *a, 16);
    *c = add(*c, *d);
    *b = xor_rotate(*b, *c, 12);
    *a = add(*a, *b);
    *d = xor_rotate(*d, *a, 8);
    *c = add(*c, *d);
    *b = xor_rotate(*b, *c, 7);
}

/// A block of the stream under the key that begins with the seed, least byte first, and goes on with zeros.
#[inline(never)]
fn block(seed: u64, stream: u64, counter: u64) -> [u32; 16] {
    let halves = |x: u64| (x as u32, (x >> 32) as u32);
    let ((seed_low, seed_high), (low, high), (stream_low, stream_high)) =
        (halves(seed), halves(counter), halves(stream));
    let first = [CONSTANTS, [seed_low, seed_high, 0, 0], [0; 4], [low, high, stream_low, stream_high]];
    let [mut a, mut b, mut c, mut d] = first;
    for _ in 0..4 {
        quarter_rounds(&mut a, &mut b, &mut c, &mut d);
        (b, c, d) = (turn(b, 1), turn(c, 2), turn(d, 3));
        quarter_rounds(&mut a, &mut b, &mut c, &mut d);
        (b, c, d) = (turn(b, 3), turn(c, 2), turn(d, 1));
    }
    let mut words = [0; 16];
    for (row, (mixed, first)) in [a, b, c, d].into_iter().zip(first).enumerate() {
        words[4 * row..4 * row + 4].copy_from_slice(&add(mixed, first));
    }
    words
}

/// The words of one logical process, from some place on.
pub struct WordStream {
    seed: u64,
    lp: u32,
    place: u64,
    /// The number of the block whose words are kept: none at first, since no block has this number.
    kept: u64,
    words: [u32; 16],
}

impl WordStream {
    pub fn new(seed: u64, lp: u32) -> WordStream {
        WordStream { seed, lp, place: 0, kept: u64::MAX, words: [0; 16] }
    }

    /// The number of the next word, modulo 2^64.
    #[inline(always)]
    pub fn place(&self) -> u64 {
        self.place
    }

    #[inline(always)]
    pub fn seek(&mut self, place: u64) {
        self.place = place;
    }

    #[inline(always)]
    pub fn word(&mut self) -> u32 {
        let number = self.place / WORDS_OF_BLOCK;
        if number != self.kept {
            self.words = block(self.seed, u64::from(self.lp), number);
            self.kept = number;
        }
        let word = self.words[(self.place % WORDS_OF_BLOCK) as usize];
        self.place = self.place.wrapping_add(1);
        word
    }

    /// A number below n, which is at most 2^32, from one word.
    #[inline(always)]
    pub fn below(&mut self, n: u64) -> u64 {
        (u64::from(self.word()) * n) >> 32
    }
}

#[cfg(test)]
mod tests {
    use super::block;

    /// The key stream of ChaCha with 8 rounds under a key and nonce of zeros, as published for the eSTREAM candidates.
    #[test]
    fn first_words_under_zeros() {
        let published = [0x2fef003e, 0xd6405f89, 0xe8b85b7f, 0xa1a5091f];
        assert_eq!(block(0, 0, 0)[..4], published);
    }
}
