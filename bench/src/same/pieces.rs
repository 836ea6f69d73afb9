//! That the desk and both baselines read a text in pieces as they read it whole, however it is cut: the answer, its place, and every place of the tables.
use super::text::{Lent, MARK};
use super::Both;
use crate::plain::{Gathering, Stepping};
use crate::sides::{Pieces, Plain, Side, Told};
use mihaedop::{Reading, COSTS, FACTS, SHARES};

/// The bytes of a piece; the last are more than a text has that is read.
const SIZES: [usize; 5] = [1, 3, 64, 4096, 1 << 20];

/// Among pieces of so many bytes there are empty ones too: before each, and after the last.
const AMONG_EMPTY: usize = 64;

/// The tables that are needed, and what is told if they are too short.
pub const NEEDED: [usize; 3] = [FACTS, COSTS, SHARES];
const SHORT: Told = Told::Refused { number: 8, place: 0 };

/// What is told after the end.
const OVER: Told = Told::Refused { number: 2, place: 0 };

/// What is told of a text, and the tables afterwards.
pub type Read = (Told, Lent);

/// A text so far for each side; one text after another is read in it.
pub struct SoFar {
    desk: Reading,
    stepping: Stepping,
    gathering: Gathering,
}

impl SoFar {
    pub fn new() -> SoFar {
        SoFar { desk: Reading::new(), stepping: Stepping::new(), gathering: Gathering::new() }
    }
}

/// Tables of so many places, with something else in them.
pub fn marked([facts, costs, shares]: [usize; 3]) -> Lent {
    (vec![MARK; facts], vec![MARK.into(); costs], vec![MARK.into(); shares])
}

fn end(so_far: &mut impl Pieces, places: [usize; 3]) -> Read {
    let mut lent = marked(places);
    (so_far.end(&mut lent.0, &mut lent.1, &mut lent.2), lent)
}

/// What a text gives when it is read whole, into tables of so many places; and into those that are needed.
struct Whole<'a> {
    places: [usize; 3],
    read: &'a Read,
    into_needed: Read,
}

/// Takes these pieces and ends the text, which gives what the whole text gives. Tables that are too short are not the end; after it all is refused.
fn taken<'a>(so_far: &mut impl Pieces, pieces: impl Iterator<Item = &'a [u8]>, whole: &Whole) -> Result<(), String> {
    so_far.begin_again();
    for piece in pieces {
        let told = so_far.take(piece);
        if told != Told::Taken {
            return Err(format!("says {told:?} to a piece of {} bytes", piece.len()));
        }
    }
    let read = end(so_far, whole.places);
    if read != *whole.read {
        return Err(format!("says {:?}, or leaves other tables", read.0));
    }
    if read.0 == SHORT && end(so_far, NEEDED) != whole.into_needed {
        return Err("says something else once the tables are long enough".to_string());
    }
    if so_far.take(&[]) != OVER || so_far.take(b"\n") != OVER || end(so_far, NEEDED) != (OVER, marked(NEEDED)) {
        return Err("goes on after the end".to_string());
    }
    Ok(())
}

impl Both<'_> {
    /// A text in pieces of all sizes, and among empty ones, that gives this when it is read whole into tables of so many places.
    pub fn in_pieces(&mut self, what: &str, text: &[u8], places: [usize; 3], read: &Read) -> Result<(), String> {
        let mut lent = marked(NEEDED);
        let told = Plain::read(text, &mut lent.0, &mut lent.1, &mut lent.2);
        let whole = Whole { places, read, into_needed: (told, lent) };
        for size in SIZES {
            let cut = || text.chunks(size);
            self.cut(cut, &whole).map_err(|why| format!("{what}, in pieces of {size}: {why}; whole: {:?}", read.0))?;
        }
        let cut = || text.chunks(AMONG_EMPTY).flat_map(|piece| [&[], piece]).chain([&[][..]]);
        self.cut(cut, &whole).map_err(|why| format!("{what}, in pieces among empty ones: {why}; whole: {:?}", read.0))
    }

    fn cut<'a, I: Iterator<Item = &'a [u8]>>(&mut self, cut: impl Fn() -> I, whole: &Whole) -> Result<(), String> {
        let SoFar { desk, stepping, gathering } = &mut self.so_far;
        taken(desk, cut(), whole).map_err(|why| format!("the desk {why}"))?;
        taken(stepping, cut(), whole).map_err(|why| format!("plain Rust by steps {why}"))?;
        taken(gathering, cut(), whole).map_err(|why| format!("plain Rust at once {why}"))?;
        self.alike += 1;
        Ok(())
    }
}
