//! Round trips: after each accepted reading the text is written back, and what was written is read.

use crate::script::{Bench, COSTS, FACTS, SHARES};
use crate::tables::room_for_tables;
use crate::text::read_text;

/// The calls that leave the text, the tables and the buffer as they are: what is read next doesn't rest on them.
const OTHER_CALLS: &[u8] = b"KDANBMJWCPGO";

/// A reading accepts the text: the tables have room, and it is a task's.
fn accepts(bench: &Bench) -> bool {
    room_for_tables(bench.length(FACTS), bench.length(COSTS), bench.length(SHARES)).is_ok() && read_text(bench.text()).is_ok()
}

/// The lines of a vector, and behind each reading that is accepted its round trip. The text is in the buffer before it is
/// written there, and the tables hold it before it is read again, so no place changes where all is right.
pub fn with_round_trips(body: &[u8]) -> Vec<u8> {
    let mut bench = Bench::new();
    let (mut script, mut rest) = (Vec::new(), body);
    while let Some(end) = rest.iter().position(|byte| *byte == b'\n') {
        let (line, mut after) = (&rest[..end], &rest[end + 1..]);
        if line.first().map_or(true, |letter| !OTHER_CALLS.contains(letter)) {
            after = bench.line(line, after);
        }
        script.extend_from_slice(&rest[..rest.len() - after.len()]);
        if line == b"R" && accepts(&bench) {
            script.extend_from_slice(format!("b\nT\nu {}\nR\n", bench.text().len()).as_bytes());
            ["b", "T"].iter().for_each(|line| _ = bench.line(line.as_bytes(), &[]));
        }
        rest = after;
    }
    script.extend_from_slice(rest);
    script
}
