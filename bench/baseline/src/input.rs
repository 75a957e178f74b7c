//! Reading a document.
use std::io::Read;

/// Ends the program with a text on the error stream.
pub fn stop(text: String) -> ! {
    eprintln!("{text}");
    std::process::exit(1)
}

/// Reads the document of that name in the place of what `into` held.
pub fn read(name: &str, into: &mut Vec<u8>) {
    into.clear();
    let read = if name == "-" {
        std::io::stdin().lock().read_to_end(into)
    } else {
        std::fs::File::open(name).and_then(|mut file| file.read_to_end(into))
    };
    if read.is_err() {
        stop(format!("baseline: cannot read {name}"));
    }
}
