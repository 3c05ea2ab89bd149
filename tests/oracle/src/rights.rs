//! The rights over a site: what the program `rightsum` prints (RULES 13.1 to 13.7). Its input holds the
//! images of a site, each with its length before it.

use crate::image::load;
use crate::machine::{bit, Domain, DOMAINS};
use crate::run::LONGEST_INPUT;

/// What an input is made of.
#[derive(Clone, Copy, PartialEq, Eq, Debug)]
pub enum Part<'a> {
    /// All the bytes that its length says. There may be none.
    Image(&'a [u8]),
    /// The bytes that are there of an image whose length says more.
    Cut(&'a [u8]),
    /// A single byte where a length should stand.
    Leftover,
}

/// The parts one behind another (RULES 13.2). Nothing stands behind a cut image or a leftover byte.
pub fn parts(input: &[u8]) -> Vec<Part<'_>> {
    let mut parts = Vec::new();
    let mut left = input;
    while let [high, low, rest @ ..] = left {
        let length = usize::from(*high) * 256 + usize::from(*low);
        if length > rest.len() {
            parts.push(Part::Cut(rest));
            return parts;
        }
        parts.push(Part::Image(&rest[..length]));
        left = &rest[length..];
    }
    if left.len() == 1 {
        parts.push(Part::Leftover);
    }
    parts
}

/// The rights of a site.
#[derive(Clone, Default, PartialEq, Eq, Debug)]
pub struct Rights {
    pub read: [u32; DOMAINS as usize],
    pub write: [u32; DOMAINS as usize],
    /// How many images did not load.
    pub refused: u32,
}

/// What is counted (RULES 13.3). Only for inputs that are not too long.
pub fn rights(input: &[u8]) -> Rights {
    let mut rights = Rights::default();
    for part in parts(input) {
        // What is cut is not tried: it counts as refused also where the bytes that are there would load.
        let loaded = match part {
            Part::Image(image) => load(image).ok(),
            Part::Cut(_) | Part::Leftover => None,
        };
        let Some(machine) = loaded else {
            rights.refused += 1;
            continue;
        };
        for fields in &machine.pages {
            for s in 0..DOMAINS {
                if fields.read & bit(Domain(s)) != 0 {
                    rights.read[usize::from(s)] += 1;
                }
                if fields.write & bit(Domain(s)) != 0 {
                    rights.write[usize::from(s)] += 1;
                }
            }
        }
    }
    rights
}

/// What `rightsum` prints (RULES 13.4 to 13.6).
pub fn text(input: &[u8]) -> String {
    if input.len() > LONGEST_INPUT {
        return String::from("long\n");
    }
    let Rights { read, write, refused } = rights(input);
    let mut text = String::new();
    for s in 0..usize::from(DOMAINS) {
        text += &format!("{s} {} {}\n", read[s], write[s]);
    }
    text += &format!("total {} {}\n", read.iter().sum::<u32>(), write.iter().sum::<u32>());
    text + &format!("refused {refused}\n")
}
