//! A yardstick for `ssidx index`: it prints the same index text, and nothing of it is verified.
//!
//! `baseline plain THREADS NAME...` is what a competent user writes in an hour.
//! `baseline fast THREADS NAME...` is laid out for speed.
//! The name `-` is standard input. No limit is checked: term numbers and places have 32 bits, so 4 GiB of
//! documents are too many.
mod fast;
mod fold;
mod input;
mod output;
mod plain;
mod words;

mod tables {
    include!(concat!(env!("OUT_DIR"), "/tables.rs"));
}

fn main() {
    let arguments: Vec<String> = std::env::args().skip(1).collect();
    let threads = arguments.get(1).and_then(|n| n.parse().ok()).filter(|n| (1..=64).contains(n));
    match (arguments.first().map(String::as_str), threads, arguments.get(2..)) {
        (Some("plain"), Some(threads), Some(names @ [_, ..])) => plain::run(threads, names),
        (Some("fast"), Some(threads), Some(names @ [_, ..])) => fast::run(threads, names),
        _ => input::stop("usage: baseline plain|fast THREADS NAME...".into()),
    }
}
