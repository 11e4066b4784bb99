//! Times (`time`) or counts (`count`) hora's Rust and our static library on the same inputs in one process.

mod buffers;
mod clock;
mod descent;
mod game;
mod row;
mod taught;

use descent::{BeginRow, IterateRow};
use game::{Game, Style};
use row::Row;
use std::rc::Rc;
use taught::{BuildRow, SearchRow};

struct Asked {
    counts: bool,
    quick: bool,
    rounds: usize,
    most: usize,
    named: Vec<String>,
}

impl Asked {
    fn of(words: &[String]) -> Self {
        let value = |name: &str, default: usize| {
            let at = words.iter().position(|w| w == name);
            at.map_or(default, |i| words[i + 1].parse().expect("a number"))
        };
        let has = |name: &str| words.iter().any(|w| w == name);
        let entries = ["build", "search", "begin", "iterate"];
        let quick = has("--quick");
        Asked {
            counts: has("count"),
            quick,
            rounds: value("--rounds", if quick { 5 } else { 11 }),
            most: value("--most", if quick { 1024 } else { 4096 }),
            named: words
                .iter()
                .filter(|w| entries.contains(&w.as_str()))
                .cloned()
                .collect(),
        }
    }

    fn names(&self, entry: &str) -> bool {
        self.named.is_empty() || self.named.iter().any(|n| n == entry)
    }

    fn measure(&self, row: &mut dyn Row, n: usize) {
        if self.counts {
            return row::count(row);
        }
        // A build of 4,096 takes seconds.
        let rounds = if n == 4096 {
            self.rounds.min(7)
        } else {
            self.rounds
        };
        row::time(row, rounds);
    }

    fn ks(&self) -> &'static [usize] {
        if self.quick {
            &[10]
        } else {
            &[1, 10, 64]
        }
    }

    fn taught(&self, game: &Rc<Game>) {
        let mut build = BuildRow::new(game.clone());
        if self.names("build") {
            self.measure(&mut build, game.n);
        } else if self.names("search") {
            build.ours();
        }
        if self.names("search") {
            for k in self.ks() {
                self.measure(&mut SearchRow::new(game.clone(), &build.graph, *k), 0);
            }
        }
    }

    fn descended(&self, game: &Rc<Game>) {
        for k in self.ks() {
            if self.names("begin") {
                self.measure(&mut BeginRow::new(game.clone(), *k), 0);
            }
            if self.names("iterate") {
                for before in [0, 1] {
                    self.measure(&mut IterateRow::new(game.clone(), *k, before), game.n);
                }
            }
        }
    }

    fn games(&self) -> impl Iterator<Item = Rc<Game>> + '_ {
        let dimensions: &[usize] = if self.quick { &[16] } else { &[4, 16, 64] };
        let ns = [256, 1024, 4096].into_iter().filter(|n| *n <= self.most);
        let sizes = ns.flat_map(move |n| dimensions.iter().map(move |d| (n, *d)));
        let styles = [Style::Uniform, Style::Clustered];
        sizes.flat_map(move |(n, d)| styles.map(|s| Rc::new(Game::new(n, d, s))))
    }
}

fn main() {
    let words: Vec<String> = std::env::args().skip(1).collect();
    let asked = Asked::of(&words);
    if !asked.counts {
        println!("| entry | n | lanes | style | k | Rust, µs | ours, µs | of it zeroing, µs | Rust / ours | the same, zeroing set apart | middle half |");
        println!("|---|---|---|---|---|---|---|---|---|---|---|");
    }
    for game in asked.games() {
        asked.taught(&game);
        if game.n <= 1024 {
            asked.descended(&game);
        }
    }
}
