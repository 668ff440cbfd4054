//! Loops written out (02, item 13) on an explicit tree. It shares no idea with the archive: it goes once through the commands
//! in prefix order, and behind each loop it puts the commands inside that loop, but for loops and with setpauses for pauses;
//! the loop's own body follows by itself. Depth is counted from the places of the commands and not on the way.
use common::reference::{Command, Tree, LOOP, PAUSE};

pub struct Unrolled {
    pub bytes: Vec<u8>,
    pub depth: usize,
}

fn is_loop(tree: &Tree, around: &[(usize, u8)]) -> usize {
    around.iter().filter(|place| tree.0[place.0].byte == LOOP).count()
}

pub fn unroll(sequence: &[u8], tree: &Tree) -> Unrolled {
    let ends = tree.0[1..].iter().map(|command| command.at).chain([sequence.len()]);
    let own: Vec<&[u8]> = tree.0.iter().zip(ends).map(|(command, end)| &sequence[command.at..end]).collect();
    let mut result = Unrolled { bytes: Vec::new(), depth: 0 };
    for (i, command) in tree.0.iter().enumerate() {
        // each loop around stands around a sequence
        let depth = 1 + command.place.len() + is_loop(tree, &command.place);
        result.bytes.extend(own[i]);
        result.depth = result.depth.max(depth);
        if command.byte == LOOP {
            result.bytes.push(0x04);
            let level = command.place.len();
            let inside = |c: &&Command| c.place.get(level).is_some_and(|around| around.0 == i);
            for (j, copied) in tree.0.iter().enumerate().filter(|(_, c)| inside(c) && c.byte != LOOP) {
                let around = &copied.place[level + 1..];
                result.depth = result.depth.max(depth + 2 + around.len() - is_loop(tree, around));
                let first = if copied.byte == PAUSE { 0x0A } else { copied.byte };
                result.bytes.push(first);
                result.bytes.extend(&own[j][1..]);
            }
        }
    }
    result
}
