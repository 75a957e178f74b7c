//! Prints distinct words whose tags in the program's tables of texts have their low 28 bits alike.
//!
//!     hard_documents COUNT
//!
//! The tag is the upper 32 bits of what the kit's `FoldHasher` makes of a word's bytes. A word here
//! is 16 letters and digits, which the hasher reads as two numbers, `first` and `second`. It
//! multiplies `first ^ STATE` by `second ^ MULTIPLIER`, and joins the halves of the product's 128
//! bits by xor.
//!
//! Trying words would find one in 2^28. Instead `first` is held, and `second` is taken as two quads
//! of four characters. The product is the sum of what either quad gives:
//!
//! - Its upper 32 bits are told by the upper quad, but for a carry.
//! - So the upper quad tells what the product's bits from the 32nd on must be, and what it gives to
//!   them itself. The rest is looked up in a table of what the lower quads give.
//!
//! Each `first` has some 36^8 / 2^28 = 10,500 such words.

use std::io::{BufWriter, Write};

const STATE: u64 = 0x243f_6a88_85a3_08d3 + 16; // with the length of a word
const MULTIPLIER: u64 = 0x9e37_79b9_7f4a_7c15;
const ALIKE: u32 = (1 << 28) - 1; // the bits of tags that are alike, all zero
const CHARACTERS: &[u8; 36] = b"0123456789abcdefghijklmnopqrstuvwxyz";
const SPREAD: usize = 40_503; // a step from quad to quad that mixes them

/// All texts of four of the characters, as the hasher reads them.
fn quads() -> Vec<u32> {
    let mut quads = vec![0];
    for _ in 0..4 {
        quads = quads
            .iter()
            .flat_map(|quad| CHARACTERS.iter().map(move |&c| quad << 8 | u32::from(c)))
            .collect();
    }
    quads
}

fn tag_of(first: u64, second: u64) -> u32 {
    let product = u128::from(first ^ STATE) * u128::from(second ^ MULTIPLIER);
    ((product as u64 ^ (product >> 64) as u64) >> 32) as u32
}

/// What the hasher multiplies in place of a lower quad.
fn lower(quad: u32) -> u32 {
    quad ^ MULTIPLIER as u32
}

/// What the hasher multiplies in place of an upper quad.
fn upper(quad: u32) -> u32 {
    quad ^ (MULTIPLIER >> 32) as u32
}

/// Lower quads by the bits that they give to the product, from the 32nd on as many as are alike.
struct LowerQuads {
    starts: Vec<u32>, // where the entries with these lowest bits begin
    entries: Vec<(u32, u32)>,
}

impl LowerQuads {
    const PLACES: usize = 1 << 21;

    fn place(bits: u32) -> usize {
        bits as usize % Self::PLACES
    }

    fn new(factor: u64, quads: &[u32]) -> LowerQuads {
        let bits = |quad| (factor.wrapping_mul(u64::from(lower(quad))) >> 32) as u32 & ALIKE;
        let mut starts = vec![0; Self::PLACES + 1];
        for &quad in quads {
            starts[Self::place(bits(quad))] += 1;
        }
        // From counts to ends, and then with each entry down to the starts.
        let mut end = 0;
        for start in &mut starts {
            end += *start;
            *start = end;
        }
        let mut entries = vec![(0, 0); quads.len()];
        for &quad in quads {
            let start = &mut starts[Self::place(bits(quad))];
            *start -= 1;
            entries[*start as usize] = (bits(quad), quad);
        }
        LowerQuads { starts, entries }
    }

    fn with_bits(&self, bits: u32) -> impl Iterator<Item = u32> + '_ {
        let place = Self::place(bits);
        let range = self.starts[place] as usize..self.starts[place + 1] as usize;
        self.entries[range].iter().filter(move |entry| entry.0 == bits).map(|entry| entry.1)
    }
}

/// Appends the words that begin with `first`.
fn push_words(first: u64, quads: &[u32], words: &mut Vec<(u64, u64)>) {
    let factor = first ^ STATE;
    let table = LowerQuads::new(factor, quads);
    let carry = |lower: u32| (u128::from(factor) * u128::from(lower)) >> 32;
    let least = quads.iter().map(|&quad| lower(quad)).min().map_or(0, carry);
    let most = quads.iter().map(|&quad| lower(quad)).max().map_or(0, carry);
    for &quad in quads {
        let product = u128::from(factor) * u128::from(upper(quad));
        for top in (product + least) >> 64..=(product + most) >> 64 {
            let bits = (top as u32).wrapping_sub(product as u32) & ALIKE;
            let seconds = table.with_bits(bits).map(|lower| u64::from(quad) << 32 | u64::from(lower));
            let found = seconds.filter(|&second| tag_of(first, second) & ALIKE == 0);
            words.extend(found.map(|second| (first, second)));
        }
    }
}

/// So many words, as the numbers that the hasher reads. Those that begin alike stand far apart.
fn words(count: usize) -> Vec<(u64, u64)> {
    let quads = quads();
    let mut words = Vec::new();
    for (i, &quad) in quads.iter().rev().enumerate() {
        if words.len() >= count {
            break;
        }
        let other = quads[i * SPREAD % quads.len()];
        push_words(u64::from(quad) << 32 | u64::from(other), &quads, &mut words);
    }
    words.sort_unstable_by_key(|&(first, second)| (second, first));
    words.truncate(count);
    words
}

fn main() -> std::io::Result<()> {
    let count = std::env::args().nth(1).and_then(|count| count.parse().ok());
    let mut out = BufWriter::new(std::io::stdout().lock());
    for (first, second) in words(count.expect("usage: hard_documents COUNT")) {
        out.write_all(&first.to_le_bytes())?;
        out.write_all(&second.to_le_bytes())?;
        out.write_all(b"\n")?;
    }
    out.flush()
}
