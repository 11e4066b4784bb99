//! Runs the smallest inputs of docs/DIFFERENCES.md over the Rust and says what it does; a line that no longer holds fails.

mod descents;
mod refused;
mod small;
mod stand_ins;
mod tally;

use tally::Tally;

fn main() {
    std::panic::set_hook(Box::new(|_| {}));
    let mut tally = Tally::default();
    refused::see(&mut tally);
    descents::see(&mut tally);
    stand_ins::see(&mut tally);
    println!("{} as written, {} not", tally.held, tally.broken);
    std::process::exit((tally.broken > 0) as i32);
}
