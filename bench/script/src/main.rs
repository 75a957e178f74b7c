//! Runs the lines of a script whose commands are `object NAME NUMBER`, `isolate`, `join`,
//! `do NAME add NUMBER` and `show NAME`, at once and in their order. It checks little of their
//! grammar and nothing of the partition: it reads, finds names in a `HashMap`, adds and prints.

use std::collections::HashMap;
use std::fmt::Write as _;
use std::io::{Read, Write};
use std::process::ExitCode;

fn run(script: &str) -> Option<String> {
    let mut values: HashMap<&str, u32> = HashMap::new();
    let mut shown = String::new();
    for line in script.lines() {
        let words: Vec<&str> = line.split_ascii_whitespace().collect();
        match words[..] {
            ["object", name, number] => {
                values.insert(name, number.parse().ok()?);
            }
            ["do", name, "add", number] => {
                let value = values.get_mut(name)?;
                *value = value.wrapping_add(number.parse().ok()?);
            }
            ["show", name] => writeln!(shown, "{name} {}", values.get(name)?).ok()?,
            ["isolate"] | ["join"] => {}
            _ => return None,
        }
    }
    Some(shown)
}

fn main() -> ExitCode {
    let mut script = String::new();
    if std::io::stdin().read_to_string(&mut script).is_err() {
        return ExitCode::FAILURE;
    }
    let Some(shown) = run(&script) else {
        return ExitCode::FAILURE;
    };
    match std::io::stdout().write_all(shown.as_bytes()) {
        Ok(()) => ExitCode::SUCCESS,
        Err(_) => ExitCode::FAILURE,
    }
}
