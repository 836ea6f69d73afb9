//! That both sides find the same distances and best steps.
use super::Both;
use crate::sides::{Side, Told};
use mihaedop::{BEST_STEPS, DISTANCES};

/// What a place holds before it is written: neither a distance nor none; and neither a best step nor none.
const MARK: u32 = u32::MAX - 1;
const BEST_MARK: u8 = u8::MAX - 1;

impl Both<'_> {
    /// A map's distances and best steps into tables of so many places: the answer, and every place of both afterwards.
    pub fn distances(&mut self, map: u32, places: usize, best_places: usize) -> Result<Told, String> {
        let marked = (vec![MARK; places], vec![BEST_MARK; best_places]);
        let (mut of_desk, mut of_plain) = (marked.clone(), marked.clone());
        let desk = self.desk.distances(map, &mut of_desk.0, &mut of_desk.1);
        let plain = self.plain.distances(map, &mut of_plain.0, &mut of_plain.1);
        let what = format!("the distances of map {map} in {places} places, and its best steps in {best_places}");
        self.count(&what, desk, plain)?;
        if of_desk.0 != of_plain.0 {
            return Err(format!("{what}: the distances differ"));
        }
        if of_desk.1 != of_plain.1 {
            return Err(format!("{what}: the best steps differ"));
        }
        if matches!(desk, Told::Refused { .. }) && of_desk != marked {
            return Err(format!("{what}: they were written, though it was refused"));
        }
        Ok(desk)
    }

    /// Every map and some that aren't there, each table too short, long enough, and longer.
    pub fn maps(&mut self) -> Result<(), String> {
        for map in (0..self.desk.task.counts().maps + 1).chain([8, u32::MAX]) {
            for places in [0, DISTANCES - 1, DISTANCES, DISTANCES + 1] {
                for best_places in [0, BEST_STEPS - 1, BEST_STEPS, BEST_STEPS + 1] {
                    self.distances(map, places, best_places)?;
                }
            }
        }
        Ok(())
    }
}
