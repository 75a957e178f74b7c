//! Full default case folding.
use crate::tables::{FOLD_INDEX, FOLD_PAGES, LONG};

/// Appends the folding of `c`.
#[inline]
pub fn fold_char(c: char, into: &mut Vec<u8>) {
    let place = c as usize;
    // 0 is the character itself, a value below 0x110000 one character, a higher one a text of LONG.
    let to = FOLD_PAGES[FOLD_INDEX[place >> 8] as usize][place & 255];
    let mut room = [0; 4];
    if to == 0 {
        into.extend_from_slice(c.encode_utf8(&mut room).as_bytes());
    } else if to < 0x110000 {
        into.extend_from_slice(char::from_u32(to).unwrap().encode_utf8(&mut room).as_bytes());
    } else {
        into.extend_from_slice(LONG[(to - 0x110000) as usize].as_bytes());
    }
}

/// The folding of `word`.
pub fn fold(word: &str) -> String {
    let mut out = Vec::with_capacity(word.len());
    word.chars().for_each(|c| fold_char(c, &mut out));
    String::from_utf8(out).unwrap()
}
