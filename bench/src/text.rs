//! Writing a task's text, reading it, and the one after the other. Each side is lent the same buffer and the same tables each time.
use crate::sides::{Desk, Plain, Side, Told};
use crate::tables::Tables;
use crate::timing::{tell, timed};
use mihaedop::{Task, TEXT};

/// A task's tables, and its text.
pub struct Text<'a> {
    pub tables: Tables,
    pub text: &'a [u8],
}

impl<'a> Text<'a> {
    pub fn of(task: &Task, text: &'a [u8]) -> Text<'a> {
        Text { tables: Tables::of(task), text }
    }

    /// The work of writing it.
    pub fn writing<S: Side>(&self) -> impl FnMut() + '_ {
        let mut buffer = [0; TEXT];
        move || self.write::<S>(&mut buffer)
    }

    /// The work of reading it.
    pub fn reading<S: Side>(&self) -> impl FnMut() + '_ {
        let mut tables = Tables::zeros();
        move || self.read::<S>(self.text, &mut tables)
    }

    /// The work of writing it, and reading what was written.
    fn writing_and_reading<S: Side>(&self) -> impl FnMut() + '_ {
        let (mut buffer, mut tables) = ([0; TEXT], Tables::zeros());
        move || {
            self.write::<S>(&mut buffer);
            self.read::<S>(&buffer[..self.text.len()], &mut tables);
        }
    }

    fn write<S: Side>(&self, buffer: &mut [u8]) {
        let Tables { counts, facts, costs, shares } = &self.tables;
        assert_eq!(S::write(*counts, facts, costs, shares, buffer), Told::Length(self.text.len()));
    }

    fn read<S: Side>(&self, text: &[u8], tables: &mut Tables) {
        let Tables { facts, costs, shares, .. } = tables;
        assert_eq!(S::read(text, facts, costs, shares), Told::Counts(self.tables.counts));
    }
}

pub fn measure(name: &str, task: &Task, text: &[u8]) {
    let text = Text::of(task, text);
    let bytes = text.text.len();
    tell(name, &format!("writing a task: {bytes} bytes of text"), timed(text.writing::<Desk>(), text.writing::<Plain>()));
    tell(name, &format!("reading a task: {bytes} bytes of text"), timed(text.reading::<Desk>(), text.reading::<Plain>()));
    let both = timed(text.writing_and_reading::<Desk>(), text.writing_and_reading::<Plain>());
    tell(name, "writing a task and reading it again", both);
}
