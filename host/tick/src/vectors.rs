//! The vectors of crates/vectors: what its stdout says, by hand but for numbers of reactions outside item 6, is what the
//! reference gives on its stdin, and the archive too. The top of that stdin explains its lines.
use crate::archive::ANSWER_LENGTH;
use crate::reference::{self, Sequence};
use crate::runs;
use crate::tally::Tally;
use common::table;

pub fn vectors(tally: &mut Tally) {
    let given = listing(tally, include_str!("../../../crates/vectors/stdin"));
    let expected: Vec<&str> = include_str!("../../../crates/vectors/stdout").lines().collect();
    tally.counts.expect(given.len() == expected.len(), || "the vectors have more lines, or fewer".into());
    let mut title = "";
    for (given, expected) in given.iter().zip(expected) {
        title = if expected.starts_with(' ') { title } else { expected };
        tally.counts.expect(given == expected, || format!("the reference on {title}: {given}, not {expected}"));
    }
}

/// The titles, and a line for each call.
fn listing(tally: &mut Tally, vectors: &str) -> Vec<String> {
    let (mut lines, mut bytes, mut read_back) = (Vec::new(), Vec::new(), 0);
    for line in vectors.lines().filter(|line| !line.is_empty() && !line.starts_with('#')) {
        let Some(indented) = line.strip_prefix("  ") else {
            lines.push(line.to_string());
            bytes.clear();
            read_back = 0;
            continue;
        };
        let (word, rest) = indented.split_once(' ').unwrap_or((indented, ""));
        match word {
            "bytes" => bytes.extend(table::bytes(rest)),
            "times" => {
                let (count, repeated) = rest.split_once(' ').expect("a count and bytes");
                bytes.extend(table::bytes(repeated).repeat(count.parse().expect("a count")));
            }
            "declared" => read_back = u32::from_str_radix(rest, 16).expect("a read-back set"),
            "run" | "from" => lines.extend(machine(tally, (&bytes, read_back), rest, ANSWER_LENGTH)),
            "short" => lines.extend(machine(tally, (&bytes, read_back), rest, ANSWER_LENGTH - 1)),
            "long" => lines.extend(machine(tally, (&bytes, read_back), rest, ANSWER_LENGTH + 1)),
            _ => panic!("no line of a vector: {line}"),
        }
    }
    lines
}

/// The lines of a machine: from the record before a colon, or a cleared one, on the inputs behind it. From a cleared
/// record on the paper is there to compare, if there is one.
fn machine(tally: &mut Tally, (bytes, read_back): (&[u8], u32), rest: &str, answer_length: usize) -> Vec<String> {
    let (record, inputs) = rest.split_once(':').map_or((None, rest), |(record, inputs)| (Some(record), inputs));
    let cleared = runs::record(0, 0);
    let (sequence, mut state) =
        (Sequence::new(bytes.to_vec(), read_back), record.map_or(cleared.clone(), table::bytes));
    let mut paper = sequence.paper().filter(|_| state == cleared);
    let inputs = inputs.split_whitespace().map(|input| u32::from_str_radix(input, 16).expect("an input"));
    let line = |(i, input): (usize, u32)| {
        tally.compare(&sequence, &state, input, answer_length, paper.as_mut());
        match reference::tick(&sequence, &state, input, answer_length) {
            Ok(instant) => {
                let line = format!("  {}: {}", instant.tree.reactions, instant.line(i + 1));
                state = instant.state;
                line
            }
            Err(number) => format!("  refused {number}, records kept"),
        }
    };
    inputs.enumerate().map(line).collect()
}
