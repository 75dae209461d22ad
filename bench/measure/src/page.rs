//! The page of results: as plain text, and as Markdown.

/// What was measured, on which machine, and how.
pub struct Page {
    pub machine: String,
    pub rules: String,
    pub sections: Vec<Section>,
}

/// One kind of comparison: what it is, and a table.
pub struct Section {
    pub title: &'static str,
    pub note: String,
    pub heads: Vec<&'static str>,
    pub rows: Vec<Vec<String>>,
}

impl Page {
    pub fn text(&self) -> String {
        let mut text = format!("{}\n{}\n", self.machine, self.rules);
        for section in &self.sections {
            text += &format!("\n{}\n{}\n", section.title, section.note);
            text += &section.columns();
        }
        text
    }

    pub fn markdown(&self) -> String {
        let mut text = format!(
            "# Measurements\n\n`bench/run --write` wrote this page.\n\n{}\n\n{}\n",
            self.machine, self.rules
        );
        for section in &self.sections {
            text += &format!("\n## {}\n\n{}\n", section.title, section.note);
            text += &section.bars();
        }
        text
    }
}

impl Section {
    /// Columns as wide as their widest entry: words to the left, numbers to the right.
    fn columns(&self) -> String {
        let lines = self.lines();
        let widths: Vec<usize> = (0..self.heads.len())
            .map(|column| lines.iter().map(|line| width(&line[column])).max())
            .map(|widest| widest.unwrap_or(0))
            .collect();
        let mut text = String::new();
        for line in lines.iter().filter(|_| !self.rows.is_empty()) {
            let cells: Vec<String> = (0..line.len())
                .map(|column| padded(&line[column], widths[column], self.words(column)))
                .collect();
            text += &format!("  {}\n", cells.join("  ").trim_end());
        }
        text
    }

    fn bars(&self) -> String {
        if self.rows.is_empty() {
            return String::new();
        }
        let mut lines = self.lines();
        let rule = |column| if self.words(column) { "---" } else { "---:" }.to_string();
        lines.insert(1, (0..self.heads.len()).map(rule).collect());
        let bar = |line: &Vec<String>| format!("| {} |\n", line.join(" | "));
        format!("\n{}", lines.iter().map(bar).collect::<String>())
    }

    /// The first column, and every other one that has no number in it.
    fn words(&self, column: usize) -> bool {
        let number = |row: &Vec<String>| row[column].starts_with(|c: char| c.is_ascii_digit());
        column == 0 || !self.rows.iter().any(number)
    }

    fn lines(&self) -> Vec<Vec<String>> {
        let heads = self.heads.iter().map(|head| head.to_string()).collect();
        let mut lines = vec![heads];
        lines.extend(self.rows.iter().cloned());
        lines
    }
}

fn width(entry: &str) -> usize {
    entry.chars().count()
}

fn padded(entry: &str, wide: usize, left: bool) -> String {
    let room = " ".repeat(wide - width(entry));
    if left {
        format!("{entry}{room}")
    } else {
        format!("{room}{entry}")
    }
}

/// A whole number with commas between thousands.
pub fn whole(number: u32) -> String {
    let digits = number.to_string();
    let mut text = String::new();
    for (place, digit) in digits.chars().enumerate() {
        if place > 0 && (digits.len() - place).is_multiple_of(3) {
            text.push(',');
        }
        text.push(digit);
    }
    text
}

/// A share of a whole.
pub fn percent(part: u32, all: u32) -> String {
    format!("{:.0} %", 100.0 * f64::from(part) / f64::from(all))
}

/// Says where Film is slower than plain Rust by more than a tenth.
pub fn remark(ratio: f64) -> String {
    if ratio > 1.10 {
        format!("Film slower by {:.0} %", 100.0 * (ratio - 1.0))
    } else {
        String::new()
    }
}
