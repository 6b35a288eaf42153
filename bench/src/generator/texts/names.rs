//! Names for so many vats.

use super::draft::Field;
use crate::generator::Random;
use crate::reference::LONGEST_NAME;

const BYTES: &[u8; 63] = b"ABCDEFGHIJKLMNOPQRSTUVWXYZabcdefghijklmnopqrstuvwxyz0123456789-";

pub const KINDS: usize = 8;

/// The list number `kind`, taken round: all different, from 1 to 16 bytes.
pub fn listed(kind: usize, n: usize) -> Vec<Field> {
    let name = match kind % KINDS {
        0 => |i| format!("V{}", i + 1).into_bytes(),
        // The shortest, through every byte.
        1 => |i| vec![BYTES[2 * i % 63]],
        // The longest, different only at the end or only at the start.
        2 => |i| longest(LONGEST_NAME - 1, i),
        3 => |i| longest(0, i),
        // Each the start of the next.
        4 => |i: usize| vec![BYTES[i / LONGEST_NAME]; i % LONGEST_NAME + 1],
        // Different only in upper and lower case.
        5 => |i| cased(b"vatno", i),
        6 => |i: usize| vec![[b'-', b'0'][i / LONGEST_NAME % 2]; i % LONGEST_NAME + 1],
        // Every length.
        _ => |i: usize| format!("{i:->width$}", width = i % LONGEST_NAME + 1).into_bytes(),
    };
    (0..n).map(name).collect()
}

fn longest(place: usize, i: usize) -> Field {
    let mut name = vec![b'-'; LONGEST_NAME];
    name[place] = BYTES[i];
    name
}

/// A word with the capitals that the digits of `i` ask for.
fn cased(word: &[u8], i: usize) -> Field {
    let letters = word.iter().enumerate();
    let capital = |place: usize| i >> place & 1 == 1;
    letters
        .map(|(place, letter)| {
            if capital(place) {
                letter.to_ascii_uppercase()
            } else {
                *letter
            }
        })
        .collect()
}

/// One of the lists, or names by chance.
pub fn drawn(random: &mut Random, n: usize) -> Vec<Field> {
    if random.once_in(2) {
        return listed(random.below(KINDS as u64) as usize, n);
    }
    let longest = random.pick(&[2, 3, LONGEST_NAME]);
    let mut names: Vec<Field> = Vec::new();
    while names.len() < n {
        let name = by_chance(random, longest);
        if !names.contains(&name) {
            names.push(name);
        }
    }
    names
}

fn by_chance(random: &mut Random, longest: usize) -> Field {
    let length = random.between(1, longest as i64);
    (0..length).map(|_| random.pick(BYTES)).collect()
}
