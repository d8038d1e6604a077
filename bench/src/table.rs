//! The rows of the result and the table that they are printed as.

use crate::measure::median;

/// What the host kernel gives for a row.
#[derive(Clone, Copy)]
pub enum Kernel {
    /// It has no such call, or none in such a state.
    None,
    Refused,
    Nanoseconds(f64),
}

impl Kernel {
    /// A measurement, which is None where the kernel refuses.
    pub fn of(measured: Option<f64>) -> Kernel {
        measured.map_or(Kernel::Refused, Kernel::Nanoseconds)
    }

    fn nanoseconds(self) -> Option<f64> {
        match self {
            Kernel::Nanoseconds(nanoseconds) => Some(nanoseconds),
            Kernel::None | Kernel::Refused => None,
        }
    }
}

/// One measured call; times are in nanoseconds.
pub struct Row {
    pub name: String,
    pub archive: f64,
    /// The archive's lowest and highest time of a round.
    pub range: (f64, f64),
    pub reference: f64,
    pub kernel: Kernel,
    pub goal: f64,
}

impl Row {
    /// The medians over the rows that several rounds have for one call; the kernel's is over the rounds in which it
    /// refuses nothing.
    fn median_of(rounds: &[&Row]) -> Row {
        let middle = |time: fn(&Row) -> f64| median(rounds.iter().map(|row| time(row)).collect());
        let kernel: Vec<f64> = rounds.iter().filter_map(|row| row.kernel.nanoseconds()).collect();
        Row {
            name: rounds[0].name.clone(),
            archive: middle(|row| row.archive),
            range: rounds.iter().fold(rounds[0].range, |(low, high), row| {
                (low.min(row.range.0), high.max(row.range.1))
            }),
            reference: middle(|row| row.reference),
            kernel: if kernel.is_empty() {
                rounds[0].kernel
            } else {
                Kernel::Nanoseconds(median(kernel))
            },
            goal: rounds[0].goal,
        }
    }

    /// Which goals the row misses, and by how much.
    pub fn misses(&self) -> Vec<String> {
        let mut misses = Vec::new();
        if self.archive > self.goal {
            misses.push(format!("MISSED by {:.0} ns", self.archive - self.goal));
        }
        let over = self.kernel.nanoseconds().map_or(0.0, |kernel| self.archive - kernel);
        if over > 0.0 {
            misses.push(format!("SLOWER than the kernel by {over:.0} ns"));
        }
        misses
    }

    fn line(&self) -> String {
        let (kernel, ratio) = match self.kernel {
            Kernel::None => ("-".to_string(), "-".to_string()),
            Kernel::Refused => ("refused".to_string(), "-".to_string()),
            Kernel::Nanoseconds(kernel) => (number(kernel), number(kernel / self.archive)),
        };
        let misses = self.misses();
        let verdict = if misses.is_empty() { "met".to_string() } else { misses.join(", ") };
        format!(
            "| {:<43} | {:>7} | {:>10} | {:>9} | {:>5} | {:>7} | {:>5} | {:>4}, {} |",
            self.name,
            number(self.archive),
            format!("{} to {}", number(self.range.0), number(self.range.1)),
            number(self.reference),
            number(self.reference / self.archive),
            kernel,
            ratio,
            self.goal,
            verdict
        )
    }
}

/// A number with about three digits.
fn number(value: f64) -> String {
    if value < 10.0 {
        format!("{value:.1}")
    } else {
        format!("{value:.0}")
    }
}

/// The rows of several rounds as one: each time is the median over the rounds.
pub fn medians(rounds: &[Vec<Row>]) -> Vec<Row> {
    let row = |place: usize| {
        let rows: Vec<&Row> = rounds.iter().map(|rows| &rows[place]).collect();
        Row::median_of(&rows)
    };
    (0..rounds[0].len()).map(row).collect()
}

/// Prints the table, how many rows miss a goal and which are the worst states.
pub fn print(rows: &[Row]) {
    println!(
        "| {:<43} | {:>7} | {:>10} | {:>9} | {:>5} | {:>7} | {:>5} | {:>9} |",
        "call", "archive", "rounds", "reference", "times", "kernel", "times", "goal"
    );
    println!(
        "|{:-<45}|--------:|-----------:|----------:|------:|--------:|------:|----------:|",
        ""
    );
    for row in rows {
        println!("{}", row.line());
    }
    let missed = rows.iter().filter(|row| !row.misses().is_empty()).count();
    println!("\n{} rows, of which {missed} miss a goal", rows.len());
    println!(
        "rows that end in 'worst', and translations through 32 levels, are in the worst states that \
         calls can make"
    );
}
