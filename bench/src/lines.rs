//! The rows and lines of a table, and of a budget.

/// What was measured of a workload, with its name and how many pairs or names it holds.
pub struct Row<M> {
    pub name: &'static str,
    pub held: usize,
    pub measured: M,
}

pub fn line(name: &str, cells: &[String]) {
    let cells: Vec<String> = cells.iter().map(|cell| format!("{cell:>13}")).collect();
    println!("{name:<27}{}", cells.concat());
}

pub fn head(name: &str, cells: &[&str]) {
    println!();
    line(
        name,
        &cells.iter().map(ToString::to_string).collect::<Vec<_>>(),
    );
}

pub fn ns(time: f64) -> String {
    format!("{time:.0}")
}

pub fn ratio(ours: f64, rust: f64) -> String {
    format!("{:.2}", ours / rust)
}

/// A budget, and the workloads that miss it.
pub fn budget<M>(what: &str, rows: &[Row<M>], is_met: impl Fn(&M) -> bool) {
    let missed: Vec<&str> = rows
        .iter()
        .filter(|row| !is_met(&row.measured))
        .map(|row| row.name)
        .collect();
    match missed.is_empty() {
        true => println!("{what}: met"),
        false => println!("{what}: missed on {}", missed.join("; ")),
    }
}
