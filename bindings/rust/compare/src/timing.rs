//! Interleaved runs and the table of their ratios.

use std::time::Instant;

/// Microseconds of one run.
#[derive(Clone, Copy)]
pub struct Figures {
    pub median: f64,
    pub least: f64,
}

/// Times each of the runs in turn, `batch` calls at a time, so that a change of the machine's speed meets all of them
/// alike. One round of each goes before, untimed.
pub fn interleaved(samples: usize, batch: u32, runs: &mut [&mut dyn FnMut()]) -> Vec<Figures> {
    let mut times = vec![Vec::with_capacity(samples); runs.len()];
    for sample in 0..=samples {
        for turn in 0..runs.len() {
            // Another one goes first each time.
            let place = (turn + sample) % runs.len();
            let start = Instant::now();
            for _ in 0..batch {
                runs[place]();
            }
            let time = start.elapsed().as_secs_f64() * 1e6 / f64::from(batch);
            if sample > 0 {
                times[place].push(time);
            }
        }
    }
    times.iter_mut().map(|times| figures(times)).collect()
}

fn figures(times: &mut [f64]) -> Figures {
    times.sort_by(f64::total_cmp);
    Figures {
        median: times[times.len() / 2],
        least: times[0],
    }
}

/// One line of a table: what is measured beside another that does the same or less, with the greatest ratio aimed at.
pub struct Row {
    pub what: String,
    pub measured: Figures,
    pub other: Figures,
    pub target: Option<f64>,
}

impl Row {
    fn ratio(&self) -> f64 {
        self.measured.median / self.other.median
    }

    /// Its figures, and what stands in the last cell.
    fn line(&self, last: &str) -> String {
        format!(
            "| {} | {:.2} | {:.2} | {:.2} | {:.2} | {:.2} | {:.2} | {last} |",
            self.what,
            self.measured.median,
            self.measured.least,
            self.other.median,
            self.other.least,
            self.ratio(),
            self.measured.least / self.other.least,
        )
    }

    fn aimed_at(&self) -> String {
        match self.target {
            Some(target) => format!("≤ {target:.2}"),
            None => "–".to_string(),
        }
    }

    /// What is measured takes so much more than the other, by the medians.
    fn more(&self) -> String {
        format!("{:.2}", self.measured.median - self.other.median)
    }

    fn missed(&self) -> bool {
        self.target.is_some_and(|target| self.ratio() > target)
    }
}

/// The head of a Markdown table, with the names of what is measured, of the other, and of the last column.
fn print_head(title: &str, [measured, other]: [&str; 2], last: &str) {
    println!("\n### {title}\n");
    println!(
        "| what | {measured} median µs | min µs | {other} median µs | min µs | ratio of medians | ratio of minima | {last} |"
    );
    println!("|---|---:|---:|---:|---:|---:|---:|---:|");
}

/// Prints the rows with what each takes more than the other.
pub fn print_costs(title: &str, names: [&str; 2], rows: &[Row]) {
    print_head(title, names, "more, µs");
    for row in rows {
        println!("{}", row.line(&row.more()));
    }
}

/// Prints the rows with their targets, and which of them miss theirs by the median.
pub fn print_table(title: &str, names: [&str; 2], rows: &[Row]) {
    print_head(title, names, "target");
    for row in rows {
        println!("{}", row.line(&row.aimed_at()));
    }
    let missed: Vec<&str> = rows
        .iter()
        .filter(|row| row.missed())
        .map(|row| row.what.as_str())
        .collect();
    if rows.iter().any(|row| row.target.is_some()) {
        let missed = if missed.is_empty() {
            "none".to_string()
        } else {
            missed.join("; ")
        };
        println!("\nTargets missed by the median: {missed}.");
    }
}
