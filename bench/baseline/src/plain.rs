//! What a competent user would write in an hour.
use crate::fold::fold;
use crate::input;
use rayon::prelude::*;
use std::collections::BTreeMap;
use std::io::{self, BufWriter, Write};
use unicode_segmentation::UnicodeSegmentation;

/// For each term its documents, and for each of these the positions.
type Postings = Vec<(u32, Vec<u32>)>;
type Map = BTreeMap<String, Postings>;

pub fn run(threads: usize, names: &[String]) {
    let mut documents = Vec::with_capacity(names.len());
    for name in names {
        let mut bytes = Vec::new();
        input::read(name, &mut bytes);
        documents.push(bytes);
    }
    let map = map_of(threads, &documents);
    print(documents.len(), &map).unwrap_or_else(|_| input::stop("baseline: cannot write".into()));
}

fn map_of(threads: usize, documents: &[Vec<u8>]) -> Map {
    let mut map = Map::new();
    if threads == 1 {
        for (i, bytes) in documents.iter().enumerate() {
            add_document(i as u32 + 1, bytes, &mut map);
        }
        return map;
    }
    rayon::ThreadPoolBuilder::new().num_threads(threads).build_global().unwrap();
    documents
        .par_iter()
        .enumerate()
        .fold(Map::new, |mut map, (i, bytes)| {
            add_document(i as u32 + 1, bytes, &mut map);
            map
        })
        .reduce(Map::new, joined)
}

fn add_document(document: u32, bytes: &[u8], map: &mut Map) {
    let text = String::from_utf8_lossy(bytes);
    for (i, word) in text.unicode_words().enumerate() {
        let postings = map.entry(fold(word)).or_default();
        match postings.last_mut() {
            Some((last, positions)) if *last == document => positions.push(i as u32 + 1),
            _ => postings.push((document, vec![i as u32 + 1])),
        }
    }
}

// rayon keeps the order of the parts: the documents of `later` come after those of `map`.
fn joined(mut map: Map, later: Map) -> Map {
    if map.is_empty() {
        return later;
    }
    for (term, mut postings) in later {
        map.entry(term).or_default().append(&mut postings);
    }
    map
}

fn places(postings: &Postings) -> usize {
    postings.iter().map(|(_, positions)| positions.len()).sum()
}

fn print(documents: usize, map: &Map) -> io::Result<()> {
    let mut out = BufWriter::with_capacity(1 << 16, io::stdout().lock());
    writeln!(out, "documents {documents}")?;
    writeln!(out, "words {}", map.values().map(places).sum::<usize>())?;
    writeln!(out, "longest {}", map.keys().map(|term| term.chars().count()).max().unwrap_or(0))?;
    writeln!(out, "terms {}", map.len())?;
    for (term, postings) in map {
        for &b in term.as_bytes() {
            match b {
                0..=0x20 | 0x7f | b'\\' => write!(out, "\\x{b:02x}")?,
                _ => out.write_all(&[b])?,
            }
        }
        write!(out, " {} ", places(postings))?;
        for (i, (document, positions)) in postings.iter().enumerate() {
            if i > 0 {
                out.write_all(b";")?;
            }
            write!(out, "{document}:")?;
            for (j, position) in positions.iter().enumerate() {
                if j > 0 {
                    out.write_all(b",")?;
                }
                write!(out, "{position}")?;
            }
        }
        out.write_all(b"\n")?;
    }
    out.flush()
}
