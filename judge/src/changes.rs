//! What a call changed, as a script prints it: places that follow each other on one line, and those beyond the first ones digested.

use crate::script::{ARRAYS, LEN};

/// So many changed places of an array are printed with their values; a call's further ones make one line.
const SHOWN: usize = 64;
/// So many values stand on a line at most.
const ON_A_LINE: usize = 16;

/// Places side by side: the array, the first place and the values. The one place of `len` goes without its number.
pub fn line_of(k: usize, first: usize, values: &[u32]) -> String {
    let values: String = values.iter().map(|value| format!(" {}", value)).collect();
    if k == LEN as usize {
        return format!("len{}", values);
    }
    format!("{} {}{}", ARRAYS[k].0, first, values)
}

/// The changed places of an array in rising order.
pub fn changed_lines(k: usize, old: &[u32], new: &[u32]) -> Vec<String> {
    let changed: Vec<usize> = (0..new.len()).filter(|place| old[*place] != new[*place]).collect();
    let (shown, further) = changed.split_at(changed.len().min(SHOWN));
    let mut lines: Vec<String> =
        side_by_side(shown).iter().map(|(first, count)| line_of(k, *first, &new[*first..*first + *count])).collect();
    if !further.is_empty() {
        let digest = further.iter().fold(0, |digest, place| (31 * digest + *place as u64 + u64::from(new[*place])) % 1_000_003);
        lines.push(format!("{} more {} {}", ARRAYS[k].0, further.len(), digest));
    }
    lines
}

/// Rising places in stretches that go on one line: the first place of each, and how many it has.
fn side_by_side(places: &[usize]) -> Vec<(usize, usize)> {
    let mut stretches: Vec<(usize, usize)> = Vec::new();
    for place in places {
        match stretches.last_mut() {
            Some((first, count)) if *first + *count == *place && *count < ON_A_LINE => *count += 1,
            _ => stretches.push((*place, 1)),
        }
    }
    stretches
}
