//! Times each call on the archive, on the reference program and, where it has one, on the host kernel, and prints one
//! table. Times are nanoseconds of one call; 'times' says how many times the archive's the time before it is. A second
//! table has the reader of map texts, beside an ordinary parser in Rust.

mod cases;
mod kernel;
mod measure;
mod plain;
mod reading;
mod state;
mod table;
mod worst;

/// Every call is measured in each round, so that what else the machine does for a moment touches few of a call's times.
const ROUNDS: usize = 15;

fn main() {
    let round = |_| cases::rows().into_iter().chain(worst::rows()).collect();
    let rounds: Vec<Vec<table::Row>> = (0..ROUNDS).map(round).collect();
    table::print(&table::medians(&rounds));
    let readings: Vec<Vec<reading::Row>> = (0..ROUNDS).map(|_| reading::rows()).collect();
    println!();
    reading::print(&readings);
    if let Ok(load) = std::fs::read_to_string("/proc/loadavg") {
        println!("load average: {}", load.trim());
    }
}
