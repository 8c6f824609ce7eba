//! How numbers and tables are shown.

#[derive(Clone, Copy, PartialEq)]
pub enum Unit {
    Nanoseconds,
    Instructions,
}

impl Unit {
    /// What a call costs.
    pub fn call(self, x: f64) -> String {
        self.with_name(whole(x))
    }

    /// What one position, level, cluster or byte costs.
    pub fn each(self, x: f64) -> String {
        self.with_name(match x.abs() {
            size if size < 1.0 => format!("{x:.3}"),
            size if size < 100.0 => format!("{x:.1}"),
            _ => whole(x),
        })
    }

    /// What the checks of a book cost.
    pub fn checks(self, x: f64) -> String {
        match self {
            Unit::Nanoseconds => format!("{:.2} µs", x / 1000.0),
            Unit::Instructions => whole(x),
        }
    }

    /// What explains a table stands with the times alone: the page has both.
    pub fn told(self, text: &str) -> &str {
        match self {
            Unit::Nanoseconds => text,
            Unit::Instructions => "",
        }
    }

    fn with_name(self, number: String) -> String {
        match self {
            Unit::Nanoseconds => number + " ns",
            Unit::Instructions => number,
        }
    }
}

/// To the nearest whole number, with a comma before every three digits.
pub fn whole(x: f64) -> String {
    let digits = format!("{:.0}", x.abs());
    let mut out = String::from(if x <= -0.5 { "-" } else { "" });
    for (at, digit) in digits.chars().enumerate() {
        if at > 0 && (digits.len() - at) % 3 == 0 {
            out.push(',');
        }
        out.push(digit);
    }
    out
}

/// A heading, a text, and a table in Markdown.
pub fn table(heading: &str, text: &str, head: &[String], rows: &[Vec<String>]) -> String {
    let line = |cells: &[String]| format!("| {} |\n", cells.join(" | "));
    let mut out = format!("### {heading}\n\n");
    if !text.is_empty() {
        out += &format!("{text}\n\n");
    }
    out += &line(head);
    out += &format!("|{}\n", "---|".repeat(head.len()));
    for row in rows {
        out += &line(row);
    }
    out + "\n"
}

pub fn cells(names: &[&str]) -> Vec<String> {
    names.iter().map(|name| name.to_string()).collect()
}
