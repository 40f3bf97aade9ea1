//! Columns of text under headings, two spaces apart.

/// A column: its heading, its cells, and whether they stand to the left, as words do, or to the right, as numbers do.
pub struct Column {
    heading: String,
    cells: Vec<String>,
    left: bool,
}

impl Column {
    pub fn words(heading: &str, cells: impl IntoIterator<Item = String>) -> Column {
        Column { heading: heading.to_string(), cells: cells.into_iter().collect(), left: true }
    }

    pub fn numbers(heading: &str, cells: impl IntoIterator<Item = String>) -> Column {
        Column { left: false, ..Column::words(heading, cells) }
    }

    fn width(&self) -> usize {
        self.cells.iter().map(String::len).chain([self.heading.len()]).max().unwrap_or(0)
    }

    fn padded(&self, cell: &str) -> String {
        match self.left {
            true => format!("{:<1$}", cell, self.width()),
            false => format!("{:>1$}", cell, self.width()),
        }
    }
}

/// The columns side by side, a line for the headings and one for each row. All have as many cells.
pub fn text(columns: &[Column]) -> String {
    let rows = columns.first().map_or(0, |column| column.cells.len());
    let line = |cell: &dyn Fn(&Column) -> String| columns.iter().map(cell).collect::<Vec<_>>().join("  ") + "\n";
    let headings = line(&|column| column.padded(&column.heading));
    let cells = (0..rows).map(|row| line(&|column| column.padded(&column.cells[row])));
    std::iter::once(headings).chain(cells).collect()
}

#[cfg(test)]
mod tests {
    use super::{text, Column};

    fn cells(cells: &[&str]) -> Vec<String> {
        cells.iter().map(|cell| cell.to_string()).collect()
    }

    #[test]
    fn words_stand_left_and_numbers_right() {
        let columns = [
            Column::numbers("step", cells(&["0", "10"])),
            Column::words("choice", cells(&["-", "edge 0: 0 -> 1"])),
            Column::words("at", cells(&["1", "0"])),
            Column::numbers("x0", cells(&["0", "31+"])),
        ];
        let expected = "step  choice          at   x0\n   0  -               1     0\n  10  edge 0: 0 -> 1  0   31+\n";
        assert_eq!(text(&columns), expected);
    }

    #[test]
    fn a_table_may_have_no_row() {
        assert_eq!(text(&[Column::numbers("v0", []), Column::words("at", [])]), "v0  at\n");
        assert_eq!(text(&[]), "\n");
    }
}
