//! The rows of an answer as they come, written as JSON or as a table of text.
use super::Cells;
use serde_json::{Map, Value};
use std::io::{self, Write};

/// A table's columns are as wide as what stands in them, so many rows at a time.
const BLOCK: usize = 1_000;

pub struct Sheet<'a> {
    to: &'a mut dyn Write,
    topic: &'a str,
    is_json: bool,
    /// Lines of text that wait for the width of their columns.
    block: Vec<Vec<String>>,
    widths: Vec<usize>,
    is_begun: bool,
    is_blank: bool,
}

impl<'a> Sheet<'a> {
    pub fn new(to: &'a mut dyn Write, topic: &'a str, is_json: bool) -> Sheet<'a> {
        Sheet { to, topic, is_json, block: Vec::new(), widths: Vec::new(), is_begun: false, is_blank: true }
    }

    /// Whether nothing was written yet.
    pub fn is_blank(&self) -> bool {
        self.is_blank
    }

    pub fn row(&mut self, cells: Cells) -> io::Result<()> {
        let is_first = !std::mem::replace(&mut self.is_begun, true);
        if self.is_json {
            return self.object(cells, is_first);
        }
        if is_first {
            self.block.push(cells.iter().map(|(name, _)| name.replace('_', " ")).collect());
        }
        self.block.push(cells.iter().map(|(_, value)| cell(value)).collect());
        if self.block.len() >= BLOCK {
            self.write_block()?;
        }
        Ok(())
    }

    pub fn end(mut self) -> io::Result<()> {
        match (self.is_json, self.is_begun) {
            (true, true) => self.to.write_all(b"\n  ]\n}\n"),
            (true, false) => writeln!(self.to, "{{\n  \"{}\": []\n}}", self.topic),
            (false, true) => self.write_block(),
            (false, false) => self.to.write_all(b"none\n"),
        }
    }

    fn object(&mut self, cells: Cells, is_first: bool) -> io::Result<()> {
        const INDENTED: &str = "\n    ";
        let object =
            Value::Object(cells.into_iter().map(|(name, value)| (name.to_string(), value)).collect::<Map<_, _>>());
        let before = if is_first { format!("{{\n  \"{}\": [", self.topic) } else { ",".to_string() };
        self.is_blank = false;
        // A text in JSON has no line break.
        write!(self.to, "{before}{INDENTED}{}", format!("{object:#}").replace('\n', INDENTED))
    }

    fn write_block(&mut self) -> io::Result<()> {
        let block = std::mem::take(&mut self.block);
        self.widths.resize(block.first().map_or(0, Vec::len).max(self.widths.len()), 0);
        let widths = &mut self.widths;
        block
            .iter()
            .for_each(|line| widths.iter_mut().zip(line).for_each(|(width, cell)| *width = cell.len().max(*width)));
        let padded = |line: &Vec<String>| {
            line.iter().zip(widths.iter()).map(|(cell, width)| format!("{cell:width$}")).collect::<Vec<_>>().join("  ")
        };
        let text: String = block.iter().map(|line| padded(line).trim_end().to_string() + "\n").collect();
        self.is_blank = false;
        self.to.write_all(text.as_bytes())
    }
}

fn cell(value: &Value) -> String {
    match value {
        Value::Null => "-".to_string(),
        Value::String(text) => text.clone(),
        Value::Array(list) if list.is_empty() => "-".to_string(),
        Value::Array(list) => {
            let cells: Vec<_> = list.iter().map(cell).collect();
            cells.join(if cells.iter().any(|cell| cell.contains(' ')) { ", " } else { " " })
        }
        other => other.to_string(),
    }
}

#[cfg(test)]
mod tests {
    use super::*;
    use serde_json::json;

    fn written(is_json: bool, rows: &[Cells]) -> String {
        let mut text = Vec::new();
        let mut sheet = Sheet::new(&mut text, "things", is_json);
        rows.iter().for_each(|row| sheet.row(row.clone()).expect("memory takes it"));
        sheet.end().expect("memory takes it");
        String::from_utf8(text).expect("it is text")
    }

    fn two() -> [Cells; 2] {
        [
            vec![("name", json!("a")), ("is_up", json!(true)), ("out", json!(["x", "y"]))],
            vec![("name", json!("long\n")), ("is_up", json!(false)), ("out", json!([]))],
        ]
    }

    #[test]
    fn a_table_has_columns() {
        let [one, mut other] = two();
        other[0].1 = json!("long");
        assert_eq!(written(false, &[one, other]), "name  is up  out\na     true   x y\nlong  false  -\n");
        assert_eq!(written(false, &[]), "none\n");
    }

    #[test]
    fn a_long_table_is_written_in_blocks() {
        let row = |name: String| vec![("name", json!(name)), ("up", json!(true))];
        let mut rows: Vec<_> = (0..2 * BLOCK).map(|number| row(format!("{number:05}"))).collect();
        rows.push(row("0123456789".to_string()));
        let text = written(false, &rows);
        assert_eq!(text.lines().count(), 2 * BLOCK + 2);
        assert!(text.starts_with("name   up\n00000  true\n") && text.ends_with("\n0123456789  true\n"), "{text}");
    }

    #[test]
    fn rows_are_json_as_the_whole_would_be() {
        let whole = |rows: &[Cells]| {
            let objects = rows.iter().map(|row| row.iter().map(|(name, value)| (name.to_string(), value.clone())));
            let objects: Vec<_> = objects.map(|row| Value::Object(row.collect())).collect();
            format!("{:#}\n", json!({ "things": objects }))
        };
        assert_eq!(written(true, &two()), whole(&two()));
        assert_eq!(written(true, &[]), whole(&[]));
    }

    #[test]
    fn what_was_written_is_known() {
        let mut text = Vec::new();
        let mut sheet = Sheet::new(&mut text, "things", true);
        assert!(sheet.is_blank());
        sheet.row(two()[0].clone()).expect("memory takes it");
        assert!(!sheet.is_blank());
    }
}
