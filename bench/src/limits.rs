//! The line of this machine in docs/EMBEDDING.md, "Time at the limits": the slowest inputs that are known, of the greatest size.

use crate::inputs::{bodies, runs, sections, Input};
use crate::measure::Row;

const MARK: &str = "<!-- figures: times ";
const END: &str = "<!-- end -->";
const HEAD: &str = "| Machine | Version | Section | Body | Run |\n|---|---|---|---|---|\n";

/// A section, a body and a run.
const SLOWEST: [&str; 3] = ["hostile", "br_if with 64 values", "f64"];

pub fn inputs() -> Vec<Input> {
    let [section, body, run] = SLOWEST;
    vec![sections::input(section, 32), bodies::input(body, 32), runs::input(run, 1_000_000)]
}

/// The page with a line for this machine, of rows of sections, of bodies and of runs. A line of another machine stays if it is of
/// the same version.
pub fn put(page: &str, machine: &str, version: &str, rows: [&[Row]; 3]) -> Option<String> {
    let (before, rest) = page.split_once(MARK)?;
    let (mark, rest) = rest.split_once('\n')?;
    let (lines, after) = rest.split_once(END)?;
    let of_machine =
        |line: &&str| line.split(',').next() == format!("| {machine}").split(',').next();
    let of_version = |line: &&str| line.contains(&format!(" | {version} | "));
    let others = lines.lines().filter(of_version).filter(|line| !of_machine(line));
    let mut all: Vec<String> = others.map(String::from).collect();
    all.push(line(machine, version, rows));
    all.sort_by(|one, other| other.cmp(one));
    Some(format!("{before}{MARK}{mark}\n{HEAD}{}\n{END}{after}", all.join("\n")))
}

fn line(machine: &str, version: &str, rows: [&[Row]; 3]) -> String {
    let slowest = |kind: &str, rows: &[Row]| {
        let row = rows.iter().rfind(|row| row.kind == kind);
        row.map_or(String::new(), |row| format!("{:.1} ms", row.loader / 1e6))
    };
    let times: Vec<String> =
        SLOWEST.iter().zip(rows).map(|(kind, rows)| slowest(kind, rows)).collect();
    format!("| {machine} | {version} | {} |", times.join(" | "))
}

#[cfg(test)]
mod tests {
    use super::*;

    const PAGE: &str = "a\n<!-- figures: times (x) -->\n| x86_64, A | 2.0.0 | 1 |\n| aarch64, B | 2.0.0 | 2 |\n<!-- end -->\nb\n";

    fn lines(version: &str) -> Vec<String> {
        let page = put(PAGE, "aarch64, C", version, [&[], &[], &[]]).expect("the place");
        assert!(page.starts_with("a\n<!-- figures: times (x) -->\n| Machine"), "{page}");
        assert!(page.ends_with("\n<!-- end -->\nb\n"), "{page}");
        page.lines().skip(4).take_while(|line| *line != END).map(String::from).collect()
    }

    #[test]
    fn another_machines_line_stays_while_it_is_of_this_version() {
        let own = |version: &str| format!("| aarch64, C | {version} |  |  |  |");
        assert_eq!(lines("2.0.0"), ["| x86_64, A | 2.0.0 | 1 |".to_string(), own("2.0.0")]);
        assert_eq!(lines("2.1.0"), [own("2.1.0")]);
    }
}
