//! A table of counts by row and column, every one of which has to come up.

pub struct Table {
    title: &'static str,
    rows: Vec<String>,
    columns: Vec<String>,
    /// Row after row.
    counts: Vec<u64>,
}

impl Table {
    pub fn new<R: ToString, C: ToString>(title: &'static str, rows: &[R], columns: &[C]) -> Table {
        Table {
            title,
            rows: rows.iter().map(R::to_string).collect(),
            columns: columns.iter().map(C::to_string).collect(),
            counts: vec![0; rows.len() * columns.len()],
        }
    }

    /// One column, which needs no name.
    pub fn list<R: ToString>(title: &'static str, rows: &[R]) -> Table {
        Table::new(title, rows, &[""])
    }

    pub fn add(&mut self, row: usize, column: usize) {
        self.counts[row * self.columns.len() + column] += 1;
    }

    /// Counts in a list if it happened.
    pub fn add_if(&mut self, happened: bool, row: usize) {
        self.counts[row] += u64::from(happened);
    }

    pub fn print(&self) {
        println!("{}:", self.title);
        if self.columns.len() > 1 {
            let heads: String = self.columns.iter().map(|c| format!("{c:>10}")).collect();
            println!("  {:<48}{heads}", "");
        }
        for (row, counts) in self.rows.iter().zip(self.counts.chunks(self.columns.len())) {
            let counts: String = counts.iter().map(|count| format!("{count:>10}")).collect();
            println!("  {row:<48}{counts}");
        }
    }

    /// Only the least count, where the rows are many.
    pub fn print_least(&self) {
        let least = self.counts.iter().min().unwrap_or(&0);
        println!(
            "{}: each of {} {least} times or more",
            self.title,
            self.counts.len()
        );
    }

    pub fn missing(&self) -> Vec<String> {
        let cells = self
            .rows
            .iter()
            .flat_map(|row| self.columns.iter().map(move |c| (row, c)));
        let absent = cells.zip(&self.counts).filter(|(_, count)| **count == 0);
        absent
            .map(|((row, column), _)| {
                format!("{}: {row} {column}", self.title)
                    .trim_end()
                    .to_string()
            })
            .collect()
    }
}
