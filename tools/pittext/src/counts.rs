//! What the commands so far say of the numbers in a line of text.

use hexscript::layout::{Command, Part, AXES, BASIC, LOAD, PLACES};

#[derive(Clone, Copy, Default)]
pub struct Counts {
    /// None before the first `axes`.
    pub axes: Option<usize>,
    /// Basic sets of this load.
    pub basics: usize,
    /// Divisions of this basic set.
    pub divisions: usize,
}

impl Counts {
    /// Words of a part in the text.
    pub fn words(&self, part: &Part) -> usize {
        match part {
            Part::Axes(_) => self.axes.unwrap_or(PLACES),
            Part::Divisions(_) => self.divisions,
            Part::One(_) | Part::Word(_) | Part::Ordinal => 1,
        }
    }

    /// After a load's head: no basic sets yet.
    pub fn open_set(&mut self) {
        (self.basics, self.divisions) = (0, 0);
    }

    /// After a command with these bytes behind its code.
    pub fn pass(&mut self, command: &Command, body: &[u8]) {
        match command.code {
            AXES => self.axes = Some(usize::from(body[0]).min(PLACES)),
            LOAD => self.open_set(),
            BASIC => (self.basics, self.divisions) = (self.basics + 1, 0),
            _ if command.is_division() => self.divisions = (self.divisions + 1).min(PLACES),
            _ => {}
        }
    }

    /// The counts of a `full` line.
    pub fn full(&self) -> Counts {
        Counts { axes: Some(PLACES), divisions: PLACES, ..*self }
    }
}
