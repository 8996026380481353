//! Tables in Markdown.

/// Times of one call in nanoseconds.
#[derive(Clone)]
pub struct Row {
    pub name: String,
    pub octets: usize,
    pub proved: f64,
    pub plain: f64,
    /// Plain Rust with its lists cleared first, where it has lists that are lent.
    pub cleared: Option<f64>,
    pub copy: f64,
}

const TARGET: f64 = 3.0;
/// Twice the octets in twice the time, and some room for the clock.
const LINEAR: f64 = 2.2;

/// Prints the rows and hands them back.
pub fn print(title: &str, rows: Vec<Row>) -> Vec<Row> {
    println!("\n## {title}\n");
    println!("| Call | octets | proved ns | MB/s | plain ns | ratio | plain, cleared ns | ratio | copy ns | ratio |");
    println!("|---|--:|--:|--:|--:|--:|--:|--:|--:|--:|");
    for row in &rows {
        let Row { name, octets, proved, plain, copy, .. } = row;
        let cleared = row.cleared.map_or("| ".into(), |time| format!("{time:.0} | {:.2}", proved / time));
        println!(
            "| {name} | {octets} | {proved:.0} | {:.0} | {plain:.0} | {:.2} | {cleared} | {copy:.1} | {:.0} |",
            *octets as f64 * 1000.0 / proved,
            proved / plain,
            proved / copy,
        );
    }
    rows
}

/// Splits rows into those of one name after another.
fn families(rows: &[Row]) -> impl Iterator<Item = &[Row]> {
    rows.chunk_by(|a, b| a.name == b.name)
}

/// The time at 512 octets over that at 256.
fn doubling(family: &[Row], time: impl Fn(&Row) -> f64) -> f64 {
    let at = |octets: usize| family.iter().find(|row| row.octets == octets).map_or(f64::NAN, &time);
    at(512) / at(256)
}

/// How the time grows: for each name its rows by size, with the time for each further octet.
pub fn print_growth(title: &str, rows: &[Row]) {
    println!("\n## {title}\n");
    println!("Nanoseconds for each further octet between two sizes; time at 512 octets over time at 256 (2 or less is linear).\n");
    let sizes: Vec<usize> = families(rows).next().unwrap_or_default().iter().map(|row| row.octets).collect();
    let steps: Vec<String> = sizes.windows(2).map(|pair| format!("{} to {}", pair[0], pair[1])).collect();
    println!("| Message | | {} | 512 / 256 |", steps.join(" | "));
    println!("|---|---|{}", "--:|".repeat(steps.len() + 1));
    for family in families(rows) {
        print_steps(family, "proved", |row| row.proved);
        print_steps(family, "plain", |row| row.plain);
    }
}

fn print_steps(family: &[Row], who: &str, time: impl Fn(&Row) -> f64) {
    let step = |pair: &[Row]| {
        let further = (pair[1].octets - pair[0].octets) as f64;
        format!("{:.2}", (time(&pair[1]) - time(&pair[0])) / further)
    };
    let steps: Vec<String> = family.windows(2).map(step).collect();
    println!("| {} | {who} | {} | {:.2} |", family[0].name, steps.join(" | "), doubling(family, time));
}

/// The highest ratio to plain Rust in its own way, and with its lists cleared.
pub fn print_worst(what: &str, rows: &[Row]) {
    let worst = |ratio: &dyn Fn(&Row) -> f64| {
        let highest = rows.iter().max_by(|a, b| ratio(a).total_cmp(&ratio(b)));
        highest.map_or(String::new(), |row| {
            let kept = if ratio(row) <= TARGET { "kept" } else { "missed" };
            format!("{:.2} ({}, {} octets): {kept}", ratio(row), row.name, row.octets)
        })
    };
    println!("- {what}, at most {TARGET} times plain Rust: highest {}", worst(&|row| row.proved / row.plain));
    if rows.iter().any(|row| row.cleared.is_some()) {
        println!(
            "  - with plain Rust's lists cleared: {}",
            worst(&|row| row.proved / row.cleared.unwrap_or(row.plain))
        );
    }
}

/// The highest growth from 256 to 512 octets.
pub fn print_highest_growth(what: &str, rows: &[Row]) {
    let highest = families(rows).map(|family| doubling(family, |row| row.proved)).fold(0.0, f64::max);
    let kept = if highest <= LINEAR { "kept" } else { "missed" };
    println!("- {what}, linear: 512 octets take at most {highest:.2} times what 256 take: {kept}");
}
