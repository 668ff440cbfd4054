//! Sequences made by rule: all short ones, the edges of every row, and all small trees of labels.
use common::reference::LABELS;
use common::table::bytes;

/// All byte strings up to 4 bytes over the command bytes, one above them, and edges of operands.
pub fn byte_strings(mut run: impl FnMut(&[u8])) {
    const VALUES: [u8; 18] = [0, 1, 2, 3, 4, 5, 6, 7, 8, 9, 0x0A, 0x0B, 0x0C, 0x0D, 0x10, 0x20, 0x80, 0xFF];
    let mut strings = vec![Vec::new()];
    for _ in 0..=4 {
        strings.iter().for_each(|s: &Vec<u8>| run(s));
        strings = strings.iter().flat_map(|s| VALUES.map(|b| [&s[..], &[b]].concat())).collect();
    }
}

/// What stands before a part, for every part of a command, and what must follow it.
const PARTS: [(&str, &str); 11] = [
    ("", ""),
    ("04", "00"),
    ("04 00", ""),
    ("05", "00"),
    ("05 00", ""),
    ("06", ""),
    ("07 1F", "00"),
    ("07 1F 00", ""),
    ("08 1F", ""),
    ("09", ""),
    ("0B 1F", ""),
];

/// What stands at the limits of depth and signals: nothing, and what is and what is not a statement.
const INSIDE: [&str; 22] = [
    "",
    "00",
    "0D",
    "01",
    "01 00",
    "01 80",
    "04 00",
    "06 00",
    "08",
    "08 20 00",
    "08 00 00",
    "0A",
    "0B",
    "0B 20 00",
    "0B 00 00",
    "0C",
    "0C 1F 00 00 00",
    "0C 20 00 00 00",
    "0C 20 00 00 00 80",
    "0C 1F 00 00 00 80",
    "0C 1F 00 00 80 4B",
    "0C 1F 01 00 80 4B",
];

/// Row 18: numbers of both signs and every exponent, with no digit, each digit alone, all below one, and all above one; each
/// as an emission of farms 31 and 32, alone, at the end of its depth and one deeper, and with its last byte missing.
pub fn litres(mut run: impl FnMut(&[u8])) {
    let digits = (0..23).flat_map(|n| [1 << n, (1 << n) - 1, (1 << 23) - (1 << n)]);
    let numbers = digits.flat_map(|digits: u32| (0..512u32).map(move |above| above << 23 | digits));
    for bits in numbers {
        for (levels, farm) in [(0, 31), (0, 32), (63, 31), (64, 31), (64, 32)] {
            let bytes = [&vec![0x06; levels][..], &[0x0C, farm], &bits.to_le_bytes()].concat();
            run(&bytes);
            run(&bytes[..bytes.len() - 1]);
        }
    }
}

/// The edges of rows 2 to 7.
pub fn reading(mut run: impl FnMut(&[u8])) {
    // Row 2: every length around the limit, and lengths that a narrow counter would take for short ones.
    for length in (0..=1030).chain([2048, 65_535, 65_536, 65_537, 66_560]) {
        [0x00, 0x06, 0x0B, 0x0C, 0x0D].iter().for_each(|&byte| run(&vec![byte; length]));
    }
    for (before, after) in PARTS {
        // Rows 3 to 5 and 7: every command byte and operand in every part, with too few, enough and too many parts.
        for tail in ["", "00", "00 00", "00 00 00"] {
            let (before, after) = (bytes(before), bytes(&format!("{tail} {after}")));
            (0x0E..=0xFF).for_each(|first| run(&[&before[..], &[first], &after].concat()));
            for (first, second) in (0..=0x0D).flat_map(|x| (0..=0xFF).map(move |y| (x, y))) {
                run(&[&before[..], &[first, second], &after].concat());
            }
        }
        // Row 6: around depth 64, and around six signals with other commands between and beside them.
        for inside in INSIDE {
            for n in 60..=66 {
                run(&bytes(&format!("{n}({before}) {inside} {n}({after})")));
                run(&bytes(&format!("{before} {n}(06) {inside} {after}")));
            }
            for n in 0..=8 {
                run(&bytes(&format!("{n}(08 00 {before}) {inside} {n}({after})")));
                run(&bytes(&format!("04 {n}(08 00) 00 {n}({before} 08 1F) {inside} {n}({after})")));
            }
        }
    }
}

/// Row 6 by the read-back set: signals inside each other or beside, in each part, then what is and what is not a
/// statement, with too few, enough and too many bytes; with each set.
pub fn nested(sets: &[u32], mut run: impl FnMut(&[u8], u32)) {
    for (before, after) in PARTS {
        for inside in INSIDE {
            for (n, tail) in (0..=7).flat_map(|n| ["", "00", "00 00"].map(|tail| (n, tail))) {
                let beside = bytes(&format!("04 {n}(08 00) 00 {before} 08 1F {inside} {after} {tail}"));
                let around = bytes(&format!("{n}(08 1F {before}) {inside} {n}({after}) {tail}"));
                sets.iter().for_each(|set| [&beside, &around].into_iter().for_each(|bytes| run(bytes, *set)));
            }
        }
    }
}

/// The edges of rows 8 to 10, with every pair of labels.
pub fn labels(mut run: impl FnMut(&[u8])) {
    for (k, l) in (0..LABELS).flat_map(|k| (0..LABELS).map(move |l| (k, l))) {
        for join in ["04", "05", "07 00"] {
            run(&bytes(&format!("{join} 01 {k:02X} 01 {l:02X}")));
            run(&bytes(&format!("{join} 01 {k:02X} 0A {l:02X}")));
            run(&bytes(&format!("{join} 0A {k:02X} 01 {l:02X}")));
        }
        // Row 10: how the pauses k and l stand to each other, and how two of their triggers do.
        for (pauses, triggers) in [("04", "04"), ("04", "05"), ("05", "05"), ("07 00", "05"), ("07 00", "07 00")] {
            run(&bytes(&format!("04 {triggers} 0A {k:02X} 0A {l:02X} {pauses} 01 {k:02X} 01 {l:02X}")));
            run(&bytes(&format!("{pauses} 01 {k:02X} {triggers} 0A {k:02X} 01 {l:02X}")));
            run(&bytes(&format!("{pauses} {triggers} 01 {k:02X} 0A {l:02X} 01 {l:02X}")));
        }
    }
}

/// All trees of one to four leaves: pauses and setpauses of three labels, below 64 and above, under sequences, parallels and presents; then
/// the same with every part in a suspend, which makes nothing exclusive.
pub fn small_trees(mut run: impl FnMut(&[u8])) {
    trees(&[], &mut run);
    trees(&[0x0B, 0x1F], &mut run);
}

/// The trees with some bytes before each part of a join.
fn trees(before: &[u8], run: &mut impl FnMut(&[u8])) {
    let mut trees = vec![vec![], ["00", "01 3F", "01 40", "01 7F", "0A 3F", "0A 40"].map(bytes).to_vec()];
    for leaves in 2..=4 {
        let mut larger = Vec::new();
        for first in 1..leaves {
            for (p, q) in trees[first].iter().flat_map(|p| trees[leaves - first].iter().map(move |q| (p, q))) {
                larger.extend(["04", "05", "07 00"].map(|join| [&bytes(join)[..], before, p, before, q].concat()));
            }
        }
        trees.push(larger);
    }
    trees.iter().flatten().for_each(|tree| run(tree));
}
