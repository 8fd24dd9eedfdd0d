//! Tables of figures, as the page has them and as they are read from it.

/// A name for each column, and lines of a name and a figure for each column.
#[derive(Debug, PartialEq)]
pub struct Table {
    /// What the lines are.
    pub head: String,
    pub columns: Vec<String>,
    pub lines: Vec<(String, Vec<f64>)>,
}

impl Table {
    /// As Markdown, with so many decimals.
    pub fn markdown(&self, decimals: usize) -> String {
        let cells = |cells: Vec<String>| cells.iter().map(|cell| format!(" {cell} |")).collect::<String>();
        let mut text = format!("| {} |{}\n|---|{}\n", self.head, cells(self.columns.clone()), "--:|".repeat(self.columns.len()));
        for (name, figures) in &self.lines {
            text += &format!("| {name} |{}\n", cells(figures.iter().map(|figure| format!("{figure:.decimals$}")).collect()));
        }
        text
    }

    /// The table of a page whose first column has that head.
    pub fn read(page: &str, head: &str) -> Option<Table> {
        let mut lines = page.lines().map(cells).skip_while(|cells| cells.first() != Some(&head));
        let columns = lines.next()?[1..].iter().map(|column| column.to_string()).collect();
        let figures = |cells: Vec<&str>| {
            let (name, figures) = cells.split_first()?;
            Some((name.to_string(), figures.iter().map(|figure| figure.parse()).collect::<Result<_, _>>().ok()?))
        };
        let lines = lines.skip(1).take_while(|cells| !cells.is_empty()).map(figures).collect::<Option<_>>()?;
        Some(Table { head: head.to_string(), columns, lines })
    }

    /// The figures of the line of that name.
    pub fn line(&self, name: &str) -> Option<&[f64]> {
        self.lines.iter().find(|line| line.0 == name).map(|line| &line.1[..])
    }
}

/// The cells of a table's line; none in any other line.
fn cells(line: &str) -> Vec<&str> {
    match line.strip_prefix('|').and_then(|rest| rest.strip_suffix('|')) {
        Some(rest) => rest.split('|').map(str::trim).collect(),
        None => Vec::new(),
    }
}

#[cfg(test)]
mod tests {
    use super::Table;

    #[test]
    fn printed_reads_back() {
        let table = |head: &str, figure| Table {
            head: head.to_string(),
            columns: vec!["one".to_string(), "1,000".to_string()],
            lines: vec![("first".to_string(), vec![figure, 0.5]), ("second".to_string(), vec![12.25, 1e4])],
        };
        let page = format!("# Page\n\n{}\nText.\n\n{}", table("a", 1.0).markdown(2), table("b", 2.0).markdown(2));
        assert_eq!(Table::read(&page, "a"), Some(table("a", 1.0)));
        assert_eq!(Table::read(&page, "b"), Some(table("b", 2.0)));
        assert_eq!(Table::read(&page, "c"), None);
        assert_eq!(Table::read(&page.replace("12.25", "fast"), "a"), None);
    }
}
