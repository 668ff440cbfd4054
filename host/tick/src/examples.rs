//! The run files of examples/: what their pages list, by hand, is what the reference gives, and the archive and the
//! paper too.
use crate::archive::ANSWER_LENGTH;
use crate::reference::{self, Sequence};
use crate::runs::record;
use crate::tally::Tally;
use std::{fs, path::Path};

pub fn examples(tally: &mut Tally) {
    let folder = Path::new(env!("CARGO_MANIFEST_DIR")).join("../../examples");
    let mut runs = 0;
    for entry in fs::read_dir(&folder).expect("the examples") {
        let page = entry.expect("a file of the examples").path();
        if page.extension().is_some_and(|ending| ending == "md") {
            let text = fs::read_to_string(&page).expect("a page");
            for section in text.split("\n## Run `").skip(1) {
                let name = section.split('`').next().expect("the name of a run file");
                let file = fs::read(folder.join(name)).expect("a run file");
                let listed = section.split("```text\n").find(|block| block.starts_with("instant code")).unwrap_or("");
                let (given, listed) = (listing(tally, &file), listed.split("```").next());
                tally.counts.expect(listed == Some(&given), || format!("the reference on {name}:\n{given}"));
                runs += 1;
            }
        }
    }
    tally.counts.expect(runs > 0, || "no run file".into());
}

/// What the run program prints of an accepted sequence.
fn listing(tally: &mut Tally, file: &[u8]) -> String {
    let number = |bytes: &[u8]| bytes.iter().rev().fold(0, |n, byte| n << 8 | *byte as u32);
    let (sequence, rest) = file[2..].split_at(number(&file[..2]) as usize);
    let (read_back, inputs) = rest.split_at(4);
    let (sequence, mut state) = (Sequence::new(sequence.to_vec(), number(read_back)), record(0, 0));
    let (mut paper, mut lines) = (sequence.paper(), String::from("instant code kind place emitted labels\n"));
    for (i, input) in inputs.chunks(4).enumerate() {
        let input = number(input);
        tally.compare(&sequence, &state, input, ANSWER_LENGTH, paper.as_mut());
        let Ok(instant) = reference::tick(&sequence, &state, input, ANSWER_LENGTH) else { break };
        lines += &format!("{}\n", instant.line(i + 1));
        state = instant.state;
    }
    lines + "end\n"
}
