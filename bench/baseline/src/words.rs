//! `unicode_words` with a fast path. A segment whose characters are all of simple classes, and that no Extend,
//! Format or ZWJ follows, is cut here by a table. Every other segment is cut by the crate, from the segment's start.
use crate::fold::fold_char;
use crate::tables;
use unicode_segmentation::UnicodeSegmentation;

// The classes, with the numbers that build.rs writes. OTHER is not alphanumeric.
const OTHER: u8 = 0;
const OTHER_ALPHANUMERIC: u8 = 1;
const LETTER: u8 = 2;
const DIGIT: u8 = 3;
const JOIN: u8 = 4;
const KATAKANA: u8 = 5;
const MID_LETTER: u8 = 6;
const MID_NUM: u8 = 7;
const MID_BOTH: u8 = 8;
const GLUE: u8 = 9;
const HARD: u8 = 10;
const LINE: u8 = 11;
const SPACE: u8 = 12;
const NOT_ASCII: u8 = 0xff;

/// A folded word.
pub enum Folded<'a> {
    /// From and up to these places of the text.
    Place(usize, usize),
    Bytes(&'a [u8]),
}

const fn ascii() -> [u8; 256] {
    let mut t = [NOT_ASCII; 256];
    let mut b = 0;
    while b < 128 {
        t[b] = match b as u8 {
            b'a'..=b'z' | b'A'..=b'Z' => LETTER,
            b'0'..=b'9' => DIGIT,
            b'_' => JOIN,
            b':' => MID_LETTER,
            b',' | b';' => MID_NUM,
            b'.' | b'\'' => MID_BOTH,
            b'\n' | b'\r' | 0x0b | 0x0c => LINE,
            b' ' => SPACE,
            _ => OTHER,
        };
        b += 1;
    }
    t
}
static ASCII: [u8; 256] = ascii();

/// The class and the length of the character at `p`. The end is a LINE.
#[inline(always)]
fn look(text: &str, p: usize) -> (u8, usize) {
    let bytes = text.as_bytes();
    if p >= bytes.len() {
        return (LINE, 0);
    }
    let class = ASCII[bytes[p] as usize];
    if class != NOT_ASCII {
        return (class, 1);
    }
    wide(bytes, p)
}

#[inline]
fn wide(b: &[u8], p: usize) -> (u8, usize) {
    let x = |i: usize| (b[p + i] & 0x3f) as usize;
    let (c, n) = match b[p] {
        0..=0xdf => (((b[p] & 0x1f) as usize) << 6 | x(1), 2),
        0xe0..=0xef => (((b[p] & 0x0f) as usize) << 12 | x(1) << 6 | x(2), 3),
        _ => (((b[p] & 0x07) as usize) << 18 | x(1) << 12 | x(2) << 6 | x(3), 4),
    };
    (tables::CLASS_PAGES[tables::CLASS_INDEX[c >> 8] as usize][c & 255], n)
}

/// Gives the folded words of `text` in order: those in ASCII as their places, since `text` is in ASCII's lower
/// case, and the others as bytes of their own.
#[inline(always)]
pub fn each<F: FnMut(Folded)>(text: &str, room: &mut Vec<u8>, mut f: F) {
    let bytes = text.as_bytes();
    let len = bytes.len();
    let mut p = 0;
    while p < len {
        let start = p;
        let (class, n) = look(text, p);
        p += n;
        let mut ascii = n == 1;
        let mut word = false;
        let slow = match class {
            LETTER | DIGIT | JOIN => {
                let mut last = class;
                word = class != JOIN;
                loop {
                    let (next, n) = look(text, p);
                    match next {
                        LETTER | DIGIT => {
                            last = next;
                            word = true;
                        }
                        JOIN => last = next,
                        MID_LETTER | MID_NUM | MID_BOTH => {
                            let wanted = match (last, next) {
                                (LETTER, MID_LETTER | MID_BOTH) => LETTER,
                                (DIGIT, MID_NUM | MID_BOTH) => DIGIT,
                                _ => NOT_ASCII,
                            };
                            let (after, m) = look(text, p + n);
                            if after == wanted {
                                ascii &= n == 1 && m == 1;
                                p += n + m;
                                continue;
                            }
                            break after == GLUE || after == HARD;
                        }
                        GLUE | HARD => break true,
                        KATAKANA => break last == JOIN,
                        _ => break false,
                    }
                    ascii &= n == 1;
                    p += n;
                }
            }
            LINE => false,
            SPACE => {
                while p < len && bytes[p] == b' ' {
                    p += 1;
                }
                matches!(look(text, p).0, GLUE | HARD)
            }
            KATAKANA => {
                word = true;
                loop {
                    let (next, n) = look(text, p);
                    match next {
                        KATAKANA => p += n,
                        GLUE | HARD | JOIN => break true,
                        _ => break false,
                    }
                }
            }
            GLUE | HARD => true,
            _ => {
                word = class == OTHER_ALPHANUMERIC;
                look(text, p).0 == GLUE
            }
        };
        if slow {
            let segment = text[start..].split_word_bounds().next().unwrap();
            p = start + segment.len();
            ascii = false;
            word = segment.unicode_words().next().is_some();
        }
        if word {
            if ascii {
                f(Folded::Place(start, p));
            } else {
                room.clear();
                text[start..p].chars().for_each(|c| fold_char(c, room));
                f(Folded::Bytes(room));
            }
        }
    }
}
