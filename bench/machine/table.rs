//! The table that is printed: a section has a title, a row has the times of the proved code, of what it is held against, which
//! is plain Rust or the proved code itself by another way, and of A+.
use crate::rows::Row;
use crate::windows::{Times, Windows};
use std::collections::HashMap;

pub struct Table {
    /// What A+ took, by name and number of elements; empty where it is not installed.
    aplus: HashMap<(String, usize), Times>,
}

impl Table {
    /// Lines of a name, a number of elements, and the best and the middle time of one run of A+.
    pub fn new(aplus: &str) -> Self {
        let mut runs: HashMap<_, Windows<2>> = HashMap::new();
        for line in aplus.lines() {
            let words: Vec<&str> = line.split_whitespace().collect();
            let [name @ .., n, best, middle] = &words[..] else { continue };
            if let (Ok(n), Ok(best), Ok(middle)) = (n.parse(), best.parse(), middle.parse()) {
                runs.entry((name.join(" "), n)).or_insert_with(Windows::new).take([best, middle]);
            }
        }
        let of_runs = |windows: Windows<2>| {
            let [best, middle] = windows.times();
            Times { best: best.best, middle: middle.middle }
        };
        Table { aplus: runs.into_iter().map(|(key, windows)| (key, of_runs(windows))).collect() }
    }

    pub fn section(&self, title: &str, [ours, other]: [&str; 2]) {
        println!();
        self.line(title, "n", &format!("{ours}: best, mid"), other, "ratio", "A+", "target");
    }

    pub fn row(&self, row: Row) {
        let (name, n, target) = (row.name.clone(), row.n, row.target);
        let [proved, other] = row.times();
        let aplus = n.and_then(|n| self.aplus.get(&(name.clone(), n)));
        self.line(
            &name,
            &n.map_or(String::new(), |n| n.to_string()),
            &pair(&proved),
            &pair(&other),
            &format!("{:.2}", proved.best / other.best),
            &aplus.map_or(String::new(), pair),
            &target.map_or(String::new(), |t| t.to_string()),
        );
    }

    fn line(&self, name: &str, n: &str, proved: &str, other: &str, ratio: &str, aplus: &str, target: &str) {
        let aplus = if self.aplus.is_empty() { String::new() } else { format!("  {aplus:>15}") };
        println!("{name:<50} {n:>6}  {proved:>17}  {other:>15}  {ratio:>5}{aplus}  {target:>6}");
    }
}

fn pair(times: &Times) -> String {
    let digits = if times.best < 1_000.0 { 2 } else { 0 };
    format!("{:>7.digits$} {:>7.digits$}", times.best, times.middle)
}
