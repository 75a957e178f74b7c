//! Makes tables from Debian's `unicode-data`: full case folding (statuses C and F), and a class for each code
//! point, for the fast word cutter.
use std::{env, fs, path::Path};

const DIR: &str = "/usr/share/unicode";

/// Calls `f(first, last, fields)` for every data line.
fn rows(file: &str, mut f: impl FnMut(u32, u32, &[&str])) {
    let path = Path::new(DIR).join(file);
    println!("cargo:rerun-if-changed={}", path.display());
    let text = fs::read_to_string(&path).expect("install unicode-data");
    for line in text.lines() {
        let line = line.split('#').next().unwrap().trim();
        if line.is_empty() {
            continue;
        }
        let fields: Vec<&str> = line.split(';').map(str::trim).collect();
        let (a, b) = fields[0].split_once("..").unwrap_or((fields[0], fields[0]));
        f(u32::from_str_radix(a, 16).unwrap(), u32::from_str_radix(b, 16).unwrap(), &fields);
    }
}

/// A table in two stages: pages of 256 values, shared where equal.
fn stages(name: &str, kind: &str, all: &[u32]) -> String {
    let (mut index, mut pages): (Vec<usize>, Vec<&[u32]>) = (vec![], vec![]);
    for page in all.chunks(256) {
        let at = pages.iter().position(|p| *p == page).unwrap_or_else(|| {
            pages.push(page);
            pages.len() - 1
        });
        index.push(at);
    }
    format!(
        "pub static {name}_INDEX: [u16; {}] = {index:?};\npub static {name}_PAGES: [[{kind}; 256]; {}] = {pages:?};\n",
        index.len(),
        pages.len()
    )
}

fn main() {
    let mut out = String::new();

    // Folding: 0 is the character itself, a value below 0x110000 one character, and a higher one a place in LONG.
    let mut fold = vec![0u32; 0x110000];
    let mut long: Vec<String> = vec![];
    rows("CaseFolding.txt", |c, _, fields| {
        let to: Vec<char> = match fields[1] {
            "C" | "F" => fields[2]
                .split(' ')
                .map(|h| char::from_u32(u32::from_str_radix(h, 16).unwrap()).unwrap())
                .collect(),
            _ => return,
        };
        fold[c as usize] = if let [one] = to[..] {
            one as u32
        } else {
            long.push(to.into_iter().collect());
            0x110000 + long.len() as u32 - 1
        };
    });
    out += &stages("FOLD", "u32", &fold);
    out += &format!("pub static LONG: [&str; {}] = {long:?};\n", long.len());

    // The numbers of the classes are those of src/words.rs. 10 is left to the crate.
    let mut alnum = vec![false; 0x110000];
    rows("DerivedCoreProperties.txt", |a, b, f| {
        if f[1] == "Alphabetic" {
            (a..=b).for_each(|c| alnum[c as usize] = true)
        }
    });
    let mut first = 0;
    rows("UnicodeData.txt", |a, _, f| {
        let from = if f[1].ends_with(", Last>") { first } else { a };
        first = a;
        if f[2].starts_with('N') {
            (from..=a).for_each(|c| alnum[c as usize] = true)
        }
    });
    let mut class: Vec<u32> = alnum.iter().map(|&is| is as u32).collect();
    rows("auxiliary/WordBreakProperty.txt", |a, b, f| {
        for c in a..=b {
            let good = alnum[c as usize];
            class[c as usize] = match f[1] {
                "ALetter" if good => 2,
                "Numeric" if good => 3,
                "ExtendNumLet" if !good => 4,
                "Katakana" if good => 5,
                "MidLetter" if !good => 6,
                "MidNum" if !good => 7,
                "MidNumLet" | "Single_Quote" if !good => 8,
                "Extend" | "Format" | "ZWJ" => 9,
                "CR" | "LF" | "Newline" => 11,
                "WSegSpace" if c == 0x20 => 12,
                "Double_Quote" => 0,
                _ => 10,
            };
        }
    });
    out += &stages("CLASS", "u8", &class);
    let path = Path::new(&env::var("OUT_DIR").unwrap()).join("tables.rs");
    fs::write(path, out).unwrap();
}
