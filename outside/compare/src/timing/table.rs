//! The tables: a run prints its rows with tabs between the cells, and what is
//! shown is the range over several runs, each a process of its own.

use std::process::{Command, Stdio};

/// How many runs the tables are of.
const RUNS: usize = 5;

#[derive(Clone, Copy, PartialEq)]
pub enum Table {
    Calls,
    Levels,
    V41,
    Blocks,
    Stores,
    Smallest,
}

use Table::{Blocks, Calls, Levels, Smallest, Stores, V41};

impl Table {
    const ALL: [Table; 6] = [Calls, Levels, V41, Blocks, Stores, Smallest];

    fn name(self) -> &'static str {
        match self {
            Calls => "calls",
            Levels => "levels",
            V41 => "v41",
            Blocks => "blocks",
            Stores => "stores",
            Smallest => "smallest",
        }
    }

    fn title(self) -> &'static str {
        match self {
            Calls => "Calls",
            Levels => {
                "Points in levels and the same in whole numbers, both by the proved library, role 0"
            }
            V41 => "V.41 blocks: plain is a shift register that takes bit by bit, tuned takes eight at once",
            Blocks => "How time grows: receive_points, noisy sent points, role 0",
            Stores => "How time grows: stores of mode 4, filled with points",
            Smallest => "The smallest calls: what a call takes however little it does",
        }
    }

    /// The heads of the columns that name a row.
    fn names(self) -> &'static [&'static str] {
        match self {
            Calls => &["call", "mode", "role"],
            Levels | Smallest => &["call", "mode"],
            V41 => &["call"],
            Blocks => &["mode", "points"],
            Stores => &["call", "records"],
        }
    }

    /// The heads of the columns of figures.
    fn figures(self) -> &'static [&'static str] {
        match self {
            Calls => &[
                "proved, ns a point",
                "plain, ns a point",
                "tuned, ns a point",
                "proved : plain",
                "proved : tuned",
            ],
            Levels => &["levels, ns a point", "whole, ns a point", "levels : whole"],
            V41 => &[
                "proved, ns a bit",
                "plain, ns a bit",
                "tuned, ns a bit",
                "proved : plain",
                "proved : tuned",
            ],
            Blocks => &[
                "proved, ns a call",
                "proved, ns a point",
                "tuned, ns a call",
                "tuned, ns a point",
            ],
            Stores => &[
                "proved, ns a call",
                "proved, ns a record",
                "tuned, ns a call",
                "tuned, ns a record",
            ],
            Smallest => &["proved, ns a call", "plain, ns a call", "tuned, ns a call"],
        }
    }

    /// Prints a row of one run: the table, the cells that name it, the figures.
    pub fn print_once(self, names: &[&str], figures: &[Option<f64>]) {
        let figures = figures.iter().map(|figure| match figure {
            Some(figure) => figure.to_string(),
            None => "-".to_string(),
        });
        let names = names.iter().map(|name| name.to_string());
        let cells: Vec<String> = names.chain(figures).collect();
        println!("{}\t{}", self.name(), cells.join("\t"));
    }

    /// Prints the table of several runs.
    fn print(self, runs: &[Vec<String>]) {
        let (names, figures) = (self.names(), self.figures());
        let heads = [names, figures].concat();
        let rows: Vec<Vec<Vec<&str>>> = runs.iter().map(|run| self.rows(run)).collect();
        if rows[0].is_empty() {
            return;
        }
        println!("\n{}\n\n| {} |", self.title(), heads.join(" | "));
        println!("|{}", "---|".repeat(heads.len()));
        for at in 0..rows[0].len() {
            let of_runs: Vec<&Vec<&str>> = rows.iter().map(|rows| &rows[at]).collect();
            let mut cells: Vec<String> = Vec::new();
            for column in 0..heads.len() {
                let values: Vec<&str> = of_runs.iter().map(|row| row[column]).collect();
                let named = column < names.len();
                cells.push(if named {
                    values[0].to_string()
                } else {
                    range(&values)
                });
            }
            println!("| {} |", cells.join(" | "));
        }
    }

    /// The cells of this table's rows in one run.
    fn rows(self, run: &[String]) -> Vec<Vec<&str>> {
        let cells = run.iter().map(|line| line.split('\t').collect::<Vec<_>>());
        cells
            .filter(|cells| cells[0] == self.name())
            .map(|cells| cells[1..].to_vec())
            .collect()
    }
}

/// The least and the greatest of some figures.
fn range(values: &[&str]) -> String {
    let figures: Option<Vec<f64>> = values.iter().map(|value| value.parse().ok()).collect();
    let Some(figures) = figures else {
        return "-".to_string();
    };
    let least = rounded(figures.iter().copied().fold(f64::INFINITY, f64::min));
    let most = rounded(figures.iter().copied().fold(0.0, f64::max));
    if least == most {
        least
    } else {
        format!("{least} to {most}")
    }
}

/// Three digits, or all of a whole number with its thousands set off.
fn rounded(figure: f64) -> String {
    match figure {
        0.0..9.995 => format!("{figure:.2}"),
        0.0..99.95 => format!("{figure:.1}"),
        _ => with_thousands(figure.round() as u64),
    }
}

pub fn with_thousands(number: u64) -> String {
    if number < 1000 {
        return number.to_string();
    }
    format!("{},{:03}", with_thousands(number / 1000), number % 1000)
}

/// The lines of one run, in a process of its own.
fn run(word: &str) -> Vec<String> {
    let program = std::env::current_exe().expect("this program");
    let child = Command::new(program)
        .args(["--once", word])
        .stderr(Stdio::inherit())
        .output()
        .expect("a run");
    assert!(child.status.success(), "a run failed");
    let text = String::from_utf8(child.stdout).expect("text");
    text.lines().map(str::to_string).collect()
}

/// Prints the tables of the rows whose name contains the word.
pub fn print(word: &str) {
    let mut runs = Vec::new();
    for number in 1..=RUNS {
        eprintln!("run {number} of {RUNS}");
        runs.push(run(word));
    }
    assert!(!runs[0].is_empty(), "no row's name contains {word:?}");
    println!("Each figure is the least and the greatest of {RUNS} runs.");
    for table in Table::ALL {
        table.print(&runs);
    }
}
