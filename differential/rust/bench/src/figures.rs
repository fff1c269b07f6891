//! How figures are written in the tables.

/// A time or a ratio, with as many digits as it is worth.
pub fn figure(value: f64) -> String {
    let decimals = match value {
        _ if value >= 99.5 => return grouped(value.round() as usize),
        _ if value >= 9.95 => 1,
        _ if value >= 0.0995 => 2,
        _ if value >= 0.00995 => 3,
        _ => 4,
    };
    format!("{value:.decimals$}")
}

/// An integer with a comma between thousands.
pub fn grouped(value: usize) -> String {
    let digits = value.to_string();
    let head = digits.len() % 3;
    let (first, rest) = digits.split_at(head);
    let groups = rest.as_bytes().chunks(3).map(|group| String::from_utf8_lossy(group).into_owned());
    let parts: Vec<String> = Some(first.to_owned()).into_iter().filter(|part| !part.is_empty()).chain(groups).collect();
    parts.join(",")
}

/// The middle of some values, and the lowest and the highest.
pub struct Spread {
    pub median: f64,
    min: f64,
    max: f64,
}

impl Spread {
    pub fn of(values: impl Iterator<Item = f64>) -> Spread {
        let mut values: Vec<f64> = values.collect();
        values.sort_by(f64::total_cmp);
        Spread { median: values[values.len() / 2], min: values[0], max: values[values.len() - 1] }
    }

    /// With the lowest and the highest where they differ as written.
    pub fn text(&self) -> String {
        let [median, min, max] = [self.median, self.min, self.max].map(figure);
        match min == max {
            true => median,
            false => format!("{median} ({min} to {max})"),
        }
    }
}

pub fn print_row<Cell: AsRef<str>>(cells: impl IntoIterator<Item = Cell>) {
    let cells: Vec<Cell> = cells.into_iter().collect();
    let cells: Vec<&str> = cells.iter().map(AsRef::as_ref).collect();
    println!("| {} |", cells.join(" | "));
}

/// The head of a table whose first column has text.
pub fn print_head(columns: &[&str]) {
    print_row(columns);
    print_row(columns.iter().map(|_| "---"));
}
