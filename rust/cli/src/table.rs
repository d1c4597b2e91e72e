//! Tables in plain text: columns as wide as their widest cell, two blanks between them.

/// On which side the cells of a column stand.
#[derive(Clone, Copy, Debug, PartialEq, Eq)]
pub enum Side {
    Left,
    Right,
}

/// A table with a heading; each row has a cell for each column.
pub struct Table {
    sides: Vec<Side>,
    rows: Vec<Vec<String>>,
}

impl Table {
    /// A table with these columns and no row yet.
    pub fn new(columns: &[(&str, Side)]) -> Table {
        let heading = columns.iter().map(|(name, _)| name.to_string()).collect();
        Table { sides: columns.iter().map(|&(_, side)| side).collect(), rows: vec![heading] }
    }

    /// Adds a row.
    pub fn row(&mut self, cells: Vec<String>) {
        self.rows.push(cells);
    }

    /// How wide a column is.
    fn width(&self, column: usize) -> usize {
        self.rows.iter().filter_map(|row| row.get(column)).map(|cell| cell.chars().count()).max().unwrap_or(0)
    }

    /// The table's lines, each with a newline and none with blanks at its end.
    pub fn text(&self) -> String {
        let widths: Vec<usize> = (0..self.sides.len()).map(|column| self.width(column)).collect();
        self.rows.iter().map(|row| format!("{}\n", self.line(row, &widths).trim_end())).collect()
    }

    /// The line of a row.
    fn line(&self, row: &[String], widths: &[usize]) -> String {
        let cells = row.iter().zip(widths).zip(&self.sides).map(|((cell, &width), side)| match side {
            Side::Left => format!("{cell:<width$}"),
            Side::Right => format!("{cell:>width$}"),
        });
        cells.collect::<Vec<_>>().join("  ")
    }
}

#[cfg(test)]
mod tests {
    use super::{Side, Table};

    #[test]
    fn columns_are_as_wide_as_their_widest_cell() {
        let mut table = Table::new(&[("name", Side::Left), ("pages", Side::Right)]);
        table.row(vec!["é".to_string(), "7".to_string()]);
        table.row(vec!["longer".to_string(), "123456".to_string()]);
        assert_eq!(table.text(), "name     pages\né            7\nlonger  123456\n");
    }

    #[test]
    fn no_line_ends_in_blanks() {
        let mut table = Table::new(&[("a", Side::Left), ("wide heading", Side::Left)]);
        table.row(vec!["b".to_string(), String::new()]);
        assert_eq!(table.text(), "a  wide heading\nb\n");
    }
}
