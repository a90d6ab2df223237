//! Tables in Markdown.

/// A heading and the head of a table; all columns but the first are numbers.
pub fn title(text: &str, columns: &[&str]) {
    println!("\n## {text}\n");
    head(columns);
}

fn head(columns: &[&str]) {
    println!("| {} |", columns.join(" | "));
    println!("|---|{}", "---:|".repeat(columns.len() - 1));
}

/// The columns of `line`.
pub const LINE: [&str; 5] = ["work", "library ns", "plain Rust ns", "ratio", "goal"];

/// The library's time, plain Rust's, their ratio against the goal, and what the table has besides.
pub fn line(name: &str, goal: f64, [ours, plain]: [f64; 2], more: &[String]) {
    let ratio = ours / plain;
    let verdict = if missed(ratio, goal) { "missed" } else { "met" };
    print!("| {name} | {ours:.2} | {plain:.2} | {ratio:.2} | {goal:.1} {verdict} |");
    fields(more);
}

/// A name and numbers.
pub fn row(name: &str, values: &[f64]) {
    print!("| {name} |");
    fields(&values.iter().copied().map(number).collect::<Vec<_>>());
}

fn fields(texts: &[String]) {
    for text in texts {
        print!(" {text} |");
    }
    println!();
}

pub fn number(value: f64) -> String {
    format!("{value:.2}")
}

/// A ratio, in bold where it misses the goal.
pub fn judged(ratio: f64, goal: f64) -> String {
    if missed(ratio, goal) {
        format!("**{ratio:.2}**")
    } else {
        number(ratio)
    }
}

/// A ratio that would print as the goal meets it.
fn missed(ratio: f64, goal: f64) -> bool {
    ratio >= goal + 0.005
}

/// The library's time and plain Rust's, if the kind of work exists at this m.
pub type Cell = Option<[f64; 2]>;

/// Kinds of work at several m: a column for each kind, a row for each m.
pub struct Grid {
    kinds: Vec<&'static str>,
    rows: Vec<(u32, f64, Vec<Cell>)>,
}

impl Grid {
    pub fn new(kinds: impl IntoIterator<Item = &'static str>) -> Grid {
        Grid { kinds: kinds.into_iter().collect(), rows: Vec::new() }
    }

    pub fn add(&mut self, m: u32, goal: f64, cells: Vec<Cell>) {
        self.rows.push((m, goal, cells));
    }

    /// The ratios, in bold where the goal is missed, and below them the times.
    pub fn print(&self, text: &str) {
        let columns = [&["m", "goal"], &self.kinds[..]].concat();
        title(&format!("{text}: library / plain Rust"), &columns);
        for (m, goal, cells) in &self.rows {
            let ratios = joined(cells, |[ours, plain]| judged(ours / plain, *goal));
            println!("| {m} | {goal:.1} | {ratios} |");
        }
        println!("\nNanoseconds, library and plain Rust:\n");
        head(&[&["m"], &self.kinds[..]].concat());
        for (m, _, cells) in &self.rows {
            println!("| {m} | {} |", joined(cells, |[ours, plain]| format!("{ours:.1}, {plain:.1}")));
        }
    }
}

fn joined(cells: &[Cell], shown: impl Fn([f64; 2]) -> String) -> String {
    let texts: Vec<String> = cells.iter().map(|cell| cell.map_or(String::new(), &shown)).collect();
    texts.join(" | ")
}
