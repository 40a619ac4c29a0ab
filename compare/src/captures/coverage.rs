//! What the captures reached, and what W1 makes possible and none of them did.

mod cycles;
mod forms;
mod table;

use super::parts::Parts;
use super::seeded::Made;
use crate::capture::Printed;
use cycles::Cycles;
use forms::Forms;
use table::Table;

pub struct Coverage {
    captures: u64,
    records: u64,
    forms: Forms,
    cycles: Cycles,
    sent: Table,
}

impl Default for Coverage {
    fn default() -> Coverage {
        Coverage {
            captures: 0,
            records: 0,
            forms: Forms::default(),
            cycles: Cycles::default(),
            sent: Table::list(
                "captures sent",
                &["whole", "in two pieces", "longer than a pipe"],
            ),
        }
    }
}

impl Coverage {
    pub fn captures(&self) -> u64 {
        self.captures
    }

    /// The records that were played.
    pub fn records(&self) -> u64 {
        self.records
    }

    pub fn count(&mut self, made: &Made, printed: &Printed) {
        let parts = Parts::of(&made.capture);
        self.captures += 1;
        self.records += printed.cycles.len() as u64;
        self.sent.add(usize::from(made.cut.is_some()), 0);
        self.sent.add_if(made.capture.len() > 1 << 16, 2);
        self.forms.count(&parts, printed);
        self.cycles.count(&parts.records, printed);
    }

    pub fn print(&self) {
        self.sent.print();
        self.forms.print();
        self.cycles.print();
    }

    pub fn missing(&self) -> Vec<String> {
        let mut missing = self.sent.missing();
        missing.extend(self.forms.missing());
        missing.extend(self.cycles.missing());
        missing
    }
}
