//! The tables host/*.txt: lines of a number, a colon and fields of bytes, written by hand. Behind a sequence may stand its
//! read-back set.

/// Each line's number and what follows its colon.
pub fn lines(table: &str) -> impl Iterator<Item = (u8, &str)> {
    let lines = table.lines().filter(|line| !line.is_empty() && !line.starts_with('#'));
    lines.map(|line| {
        let (number, text) = line.split_once(':').expect("a line has a colon");
        (number.parse().expect("a line begins with a number"), text)
    })
}

/// The bytes of a text such as `64(06) 00`.
pub fn bytes(text: &str) -> Vec<u8> {
    let spaced = text.replace('(', " ( ").replace(')', " ) ");
    let mut groups = vec![(1, Vec::new())]; // the open groups, each with its count
    let mut words = spaced.split_whitespace().peekable();
    while let Some(word) = words.next() {
        if words.next_if_eq(&"(").is_some() {
            groups.push((word.parse().expect("a count before a bracket"), Vec::new()));
        } else if word == ")" {
            let (count, group) = groups.pop().expect("an open group");
            groups.last_mut().expect("an open group").1.extend(group.repeat(count));
        } else {
            groups.last_mut().expect("an open group").1.push(u8::from_str_radix(word, 16).expect("a byte"));
        }
    }
    groups.remove(0).1
}

/// A sequence and its read-back set, of a text such as `02 00 & 00000001`; without the second part the set is empty.
pub fn program(text: &str) -> (Vec<u8>, u32) {
    let (sequence, set) = text.split_once('&').unwrap_or((text, "0"));
    (bytes(sequence), u32::from_str_radix(set.trim(), 16).expect("a read-back set"))
}

/// Bytes as a table writes them, without groups.
pub fn hex(bytes: &[u8]) -> String {
    bytes.iter().map(|b| format!("{b:02X}")).collect::<Vec<_>>().join(" ")
}
