//! Counts by text over the maps of std.

use std::collections::{btree_map, hash_map, BTreeMap, HashMap};
use std::time::Instant;

use crate::part;

// How many keys a map has. The second map begins with the key in the middle of the first.
const KEYS: u32 = 100_000;
const HALF: u32 = 50_000;

trait Counts: Default {
    fn add(&mut self, key: &str, by: u64);
    fn count(&self, key: &str) -> u64;
    fn len(&self) -> usize;
    fn pour(&mut self, other: Self);

    fn join(&mut self, mut other: Self) {
        if self.len() < other.len() {
            std::mem::swap(self, &mut other);
        }
        self.pour(other);
    }
}

// The two maps have these calls by the same names, and no trait in common.
macro_rules! counts_in {
    ($map:ident, $entries:ident) => {
        impl Counts for $map<String, u64> {
            fn add(&mut self, key: &str, by: u64) {
                if let Some(count) = self.get_mut(key) {
                    *count = count.wrapping_add(by);
                } else {
                    self.insert(key.to_owned(), by);
                }
            }

            fn count(&self, key: &str) -> u64 {
                self.get(key).copied().unwrap_or(0)
            }

            fn len(&self) -> usize {
                $map::len(self)
            }

            fn pour(&mut self, other: Self) {
                for (key, by) in other {
                    match self.entry(key) {
                        $entries::Entry::Occupied(mut entry) => {
                            *entry.get_mut() = entry.get().wrapping_add(by);
                        }
                        $entries::Entry::Vacant(entry) => {
                            entry.insert(by);
                        }
                    }
                }
            }
        }
    };
}

counts_in!(HashMap, hash_map);
counts_in!(BTreeMap, btree_map);

pub fn measure() {
    let first_keys = keys_from(0);
    let second_keys = keys_from(HALF);
    measure_in::<HashMap<String, u64>>("hash", &first_keys, &second_keys);
    measure_in::<BTreeMap<String, u64>>("tree", &first_keys, &second_keys);
}

fn measure_in<C: Counts>(map: &str, first_keys: &[String], second_keys: &[String]) {
    let mut first = C::default();
    let mut second = C::default();

    let start = Instant::now();
    add_all(&mut first, first_keys);
    part(&format!("{map}_add_new"), KEYS, start);

    let start = Instant::now();
    add_all(&mut first, first_keys);
    part(&format!("{map}_add_again"), KEYS, start);

    add_all(&mut second, second_keys);
    let start = Instant::now();
    first.join(second);
    part(&format!("{map}_join"), 1, start);

    let sum = sum_of(&first, first_keys).wrapping_add(sum_of(&first, second_keys));
    println!("checksum counts {sum}");
}

// `k0`, `k1` and so on, from a number on.
fn keys_from(from: u32) -> Vec<String> {
    (from..from + KEYS)
        .map(|number| format!("k{number}"))
        .collect()
}

// Adds to each key a number of its own.
fn add_all(map: &mut impl Counts, keys: &[String]) {
    for (key, by) in keys.iter().zip(1u64..) {
        map.add(key, by);
    }
}

// The sum of the counts of the keys, each times its place.
fn sum_of(map: &impl Counts, keys: &[String]) -> u64 {
    keys.iter().zip(1u64..).fold(0u64, |sum, (key, place)| {
        sum.wrapping_add(map.count(key).wrapping_mul(place))
    })
}
