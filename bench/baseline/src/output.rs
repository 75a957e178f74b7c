//! The pieces of the index text, into a growing buffer.

// The decimal digits of each number below 10,000.
const fn quads() -> [[u8; 4]; 10_000] {
    let mut t = [[0; 4]; 10_000];
    let mut n = 0;
    while n < 10_000 {
        t[n] = [
            b'0' + (n / 1000) as u8,
            b'0' + (n / 100 % 10) as u8,
            b'0' + (n / 10 % 10) as u8,
            b'0' + (n % 10) as u8,
        ];
        n += 1;
    }
    t
}

static QUADS: [[u8; 4]; 10_000] = quads();

/// Appends `n` and then `mark`.
#[inline(always)]
pub fn number(out: &mut Vec<u8>, n: u32, mark: u8) {
    out.reserve(16);
    let len = out.len();
    // SAFETY: room for 16 bytes was reserved. At most 11 are kept, and each of these was written.
    unsafe {
        let mut at = out.as_mut_ptr().add(len);
        let quad = |at: *mut u8, n: u32| (at as *mut [u8; 4]).write_unaligned(QUADS[n as usize]);
        let head = |at: *mut u8, n: u32| {
            let skip = (n < 1000) as usize + (n < 100) as usize + (n < 10) as usize;
            let word = u32::from_le_bytes(QUADS[n as usize]) >> (8 * skip);
            (at as *mut u32).write_unaligned(word.to_le());
            at.add(4 - skip)
        };
        if n < 10_000 {
            at = head(at, n);
        } else if n < 100_000_000 {
            at = head(at, n / 10_000);
            quad(at, n % 10_000);
            at = at.add(4);
        } else {
            at = head(at, n / 100_000_000);
            quad(at, n / 10_000 % 10_000);
            quad(at.add(4), n % 10_000);
            at = at.add(8);
        }
        at.write(mark);
        out.set_len(at.add(1).offset_from(out.as_ptr()) as usize);
    }
}

/// Appends a term, with its blanks, controls and backslashes escaped.
pub fn term(out: &mut Vec<u8>, term: &[u8]) {
    for &b in term {
        if b <= 0x20 || b == 0x7f || b == b'\\' {
            const HEX: &[u8; 16] = b"0123456789abcdef";
            out.extend_from_slice(&[b'\\', b'x', HEX[(b >> 4) as usize], HEX[(b & 15) as usize]]);
        } else {
            out.push(b);
        }
    }
}
