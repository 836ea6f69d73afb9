//! The operators as one lent row of records, and the tables that they stand for.

use crate::limits::*;

/// An operator: its cost, a place a variable for its preconditions and its effects, which say what a table's places say, and
/// its mark.
#[derive(Clone, Copy, Debug, PartialEq, Eq)]
pub struct Record {
    pub cost: u32,
    pub pre: [u8; VARS],
    pub eff: [u8; VARS],
    pub mark: u8,
}

/// The lent facts with the facts of each record in its operator's rows and its mark in its place, and the costs. Of facts that are too short only the
/// places that are there can be laid over: they stay too short. More operators than there may be have no rows.
pub fn laid(row: &[Record], facts: &[u8]) -> (Vec<u8>, Vec<u32>) {
    let (mut facts, mut costs) = (facts.to_vec(), vec![0; COSTS_ROOM]);
    for (o, record) in row.iter().take(OPS).enumerate() {
        costs[o] = record.cost;
        for (rows, values) in [(ROW_PRE, &record.pre), (ROW_EFF, &record.eff)] {
            let places = facts.iter_mut().skip(ROW * (rows + o));
            places.zip(values).for_each(|(place, value)| *place = *value);
        }
        facts.iter_mut().skip(ROW * ROW_MARK + o).take(1).for_each(|place| *place = record.mark);
    }
    (facts, costs)
}
