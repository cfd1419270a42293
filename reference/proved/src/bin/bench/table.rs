//! What a call costs at some sizes, and the tables of it as docs/BENCHMARKS.md has them.

/// One kind of call.
pub struct Panel {
    /// Told in a plot that has several.
    pub layer: Option<&'static str>,
    pub name: &'static str,
    pub points: Vec<Point>,
}

pub struct Point {
    pub size: usize,
    /// Of the proved layer, of the Rust and, for the book, of its calls one by one.
    pub costs: Vec<f64>,
}

pub fn nanos(cost: f64) -> String {
    format!("{cost:.1} ns")
}

pub fn instructions(cost: f64) -> String {
    format!("{cost:.0}")
}

/// The names are those of the costs. A ratio is to the second of these.
pub fn print(names: &[&str], sizes: &[usize], panels: &[Panel], show: fn(f64) -> String) {
    let mut header = vec!["call", "keys", names[0], names[1], "ratio"];
    for name in &names[2..] {
        header.extend([name, "ratio"]);
    }
    println!("| {} |", header.join(" | "));
    println!("|---{}|", "|---:".repeat(header.len() - 1));
    for panel in panels {
        for Point { size, costs } in &panel.points {
            if !sizes.contains(size) {
                continue;
            }
            let name = panel.name;
            let ratio = |cost| format!("{:.2}", cost / costs[1]);
            let mut cells = vec![show(costs[0]), show(costs[1]), ratio(costs[0])];
            for &cost in &costs[2..] {
                cells.extend([show(cost), ratio(cost)]);
            }
            println!("| {name} | {size} | {} |", cells.join(" | "));
        }
    }
    println!();
}
