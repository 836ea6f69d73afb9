//! The judge: a second program, written from the rules alone, that says what the desk must answer.

mod best;
mod builder;
mod cases;
mod changes;
mod damages;
mod desk;
mod edges;
mod edits;
mod feed;
mod idle;
mod idle_texts;
mod kinds;
mod limits;
mod moments;
mod pieces;
mod quota;
mod quota_tables;
mod quota_texts;
mod random;
mod rng;
mod round_trips;
mod row;
mod rows;
mod run;
mod script;
mod sequence;
mod space;
mod steps;
mod sums;
mod tables;
mod task;
#[cfg(test)]
mod tests;
#[cfg(test)]
mod tests_best;
#[cfg(test)]
mod tests_idle;
#[cfg(test)]
mod tests_moments;
#[cfg(test)]
mod tests_pieces;
#[cfg(test)]
mod tests_quota;
#[cfg(test)]
mod tests_rows;
#[cfg(test)]
mod tests_writing;
mod text;
mod ways;
mod writer;
mod writing;

use std::io::{Read, Write};

const USAGE: &str = "\
judge vectors SEED COUNT   writes a script of so many vectors
judge seeds FIRST COUNT    writes as many scripts of one vector by chance, one a seed, after one another
judge long                 writes the script of the vectors that take long
judge text SEED            writes a text by chance, a task's or a damaged one
judge expect < SCRIPT      writes what the program of the vectors must print
judge desk < TEXT          writes what the desk program must write
judge format < TEXT        writes what it must write if the text is to be formatted
";

fn input() -> Vec<u8> {
    let mut bytes = Vec::new();
    std::io::stdin().read_to_end(&mut bytes).expect("standard input can be read");
    bytes
}

/// The cases by name, then vectors by chance, as many as are asked for; then the small texts, the rows of records, the sums, the watched
/// runs, the lists and runs of many steps, the idle operators, those over writing, those over edition 2, those over texts in pieces, and those
/// over best steps last.
fn vectors(seed: u64, count: usize) -> Vec<u8> {
    let mut vectors = cases::bench();
    vectors.extend(edges::edges());
    vectors.extend(edits::edits());
    let mut rng = rng::Rng::new(seed);
    for i in 0..count.saturating_sub(vectors.len()) {
        vectors.push(kinds::by_chance(&mut rng, i));
    }
    vectors.truncate(count);
    vectors.push(edits::small());
    vectors.extend(rows::rows(seed));
    vectors.extend(sums::sums(seed));
    vectors.extend(moments::moments(seed));
    vectors.extend(steps::steps(seed));
    vectors.extend(idle::idle(seed));
    vectors.extend(writing::writing(seed));
    vectors.extend(quota::quotas(seed));
    vectors.extend(pieces::pieces(seed));
    vectors.extend(best::best(seed));
    builder::script_of(&vectors)
}

/// Scripts of one vector by chance, one a seed from the first on; the seed also tells the kind.
fn seeds(first: u64, count: usize) -> Vec<u8> {
    let vectors: Vec<_> = (0..count).map(|i| kinds::any_by_chance(&mut rng::Rng::of_either_edition(first + i as u64), i)).collect();
    builder::script_of(&vectors)
}

/// The vectors that take long, or whose output is long.
fn long() -> Vec<builder::Vector> {
    edges::long().into_iter().chain([quota::long()]).collect()
}

/// The output for the words of the command line, if they make sense.
fn output(words: &[&str]) -> Option<Vec<u8>> {
    match words {
        ["vectors", seed, count] => Some(vectors(seed.parse().ok()?, count.parse().ok()?)),
        ["seeds", first, count] => Some(seeds(first.parse().ok()?, count.parse().ok()?)),
        ["long"] => Some(builder::script_of(&long())),
        ["text", seed] => Some(damages::some_text(&mut rng::Rng::of_either_edition(seed.parse().ok()?))),
        ["expect"] => Some(script::expect(&input())),
        ["desk"] => Some(desk::program(&input()).into_bytes()),
        ["format"] => Some(desk::format_program(&input())),
        _ => None,
    }
}

fn main() {
    let words: Vec<String> = std::env::args().skip(1).collect();
    let words: Vec<&str> = words.iter().map(String::as_str).collect();
    match output(&words) {
        Some(output) => std::io::stdout().write_all(&output).expect("standard output can be written"),
        None => {
            eprint!("{}", USAGE);
            std::process::exit(2);
        }
    }
}
