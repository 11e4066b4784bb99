//! Cases as text: words label, numbers mean; README.md gives the format number by number.

use crate::cases::*;

/// A line of a case: a label (or several, one before each number) and numbers.
pub struct Line(pub String);

/// A label before a run of numbers.
pub fn line(label: &str, numbers: &[u32]) -> Line {
    let mut text = String::from(label);
    for number in numbers {
        text.push(' ');
        text.push_str(&number.to_string());
    }
    Line(text)
}

/// A label before each number.
pub fn labelled(pairs: &[(&str, usize)]) -> Line {
    let words: Vec<String> = pairs.iter().map(|(l, x)| format!("{} {}", l, x)).collect();
    Line(words.join(" "))
}

/// A label, the length, and the numbers.
pub fn counted(label: &str, numbers: &[u32]) -> Line {
    let mut run = vec![numbers.len() as u32];
    run.extend_from_slice(numbers);
    line(label, &run)
}

/// All nodes and all distance bits; an empty entry shows node n whatever it holds.
fn apart(entries: &[Entry], n: usize) -> (Vec<u32>, Vec<u32>) {
    let shown = |e: &Entry| if e.1 == EMPTY { n as u32 } else { e.0 };
    let nodes = entries.iter().map(shown).collect();
    let bits = entries.iter().map(|e| e.1).collect();
    (nodes, bits)
}

/// The length, the nodes and the distance bits, in one line.
pub fn counted_entries(label: &str, entries: &[Entry], n: usize) -> Line {
    let (nodes, bits) = apart(entries, n);
    let run: Vec<u32> = [vec![entries.len() as u32], nodes, bits].concat();
    line(label, &run)
}

/// The nodes and then the distance bits, their length known from numbers before.
pub fn entries(label: &str, entries: &[Entry], n: usize) -> Vec<Line> {
    let (nodes, bits) = apart(entries, n);
    vec![
        line(&format!("{}_nodes", label), &nodes),
        line(&format!("{}_bits", label), &bits),
    ]
}

pub fn state_lines(state: &State, n: usize) -> Vec<Line> {
    let mut lines = entries("lists", &state.lists, n);
    for context in &state.contexts {
        let mut run = Vec::new();
        for list in context {
            run.push(list.len() as u32);
            run.extend_from_slice(list);
        }
        lines.push(line("context", &run));
    }
    lines.push(line("visited", &state.visited));
    lines
}

/// The input of a case, its head line included.
pub fn input_lines(number: usize, case: &Case) -> Vec<Line> {
    let word = [
        "", "build", "search", "descent", "iterate", "relay", "links",
    ];
    let kind = case.kind() as usize;
    let mut lines = vec![Line(format!("{} {} kind {}", word[kind], number, kind))];
    lines.extend(match case {
        Case::Build(c) => build_lines(c),
        Case::Links(c) => links_lines(c),
        Case::Search(c) => search_lines(c),
        Case::Descent(c) => descent_lines(c),
        Case::Iterate(c) => iterate_lines(c),
        Case::Relay(c) => relay_lines(c),
    });
    lines
}

/// The sizes that every case begins with, and its own behind them.
fn sizes(lanes: &Lanes, own: &[(&str, usize)]) -> Line {
    let common = [("dimension", lanes.dimension), ("nodes", lanes.nodes)];
    labelled(&[&common, own].concat())
}

fn build_lines(c: &Build) -> Vec<Line> {
    let own = [
        ("init_k", c.init_k),
        ("index_size", c.index_size),
        ("neighbor_neighbor_size", c.neighbor_neighbor_size),
        ("threshold", c.threshold as usize),
    ];
    vec![sizes(&c.lanes, &own), line("lanes", &c.lanes.bits)]
}

fn links_lines(c: &Links) -> Vec<Line> {
    let own = [
        ("index_size", c.index_size),
        ("threshold", c.threshold as usize),
    ];
    let mut lines = vec![sizes(&c.lanes, &own), line("lanes", &c.lanes.bits)];
    lines.extend(entries("rows", &c.rows, c.lanes.nodes));
    lines
}

fn search_lines(c: &Search) -> Vec<Line> {
    vec![
        sizes(&c.lanes, &[("index_size", c.index_size), ("k", c.k)]),
        counted("roots", &c.roots),
        line("lanes", &c.lanes.bits),
        line("query", &c.query),
        line("graph", &c.graph),
    ]
}

fn descent_head(lanes: &Lanes, k: usize, s: usize) -> Vec<Line> {
    vec![
        sizes(lanes, &[("k", k), ("s", s)]),
        line("lanes", &lanes.bits),
    ]
}

fn descent_lines(c: &Descent) -> Vec<Line> {
    let mut lines = descent_head(&c.lanes, c.k, c.s);
    lines.push(counted("begin_draws", &c.begin_draws));
    lines.push(labelled(&[("iterations", c.iteration_draws.len())]));
    for draws in &c.iteration_draws {
        lines.push(counted("iteration_draws", draws));
    }
    lines
}

fn iterate_lines(c: &Iterate) -> Vec<Line> {
    let mut lines = descent_head(&c.lanes, c.k, c.s);
    lines.extend(state_lines(&c.state, c.lanes.nodes));
    lines.push(counted("draws", &c.draws));
    lines
}

fn relay_lines(c: &Relay) -> Vec<Line> {
    let mut lines = vec![sizes(&c.lanes, &[("k", c.k)]), line("lanes", &c.lanes.bits)];
    lines.extend(entries("lists", &c.lists, c.lanes.nodes));
    let mut jobs = vec![c.jobs.len() as u32];
    jobs.extend(c.jobs.iter().flat_map(|(u, v)| [*u, *v]));
    lines.push(line("jobs", &jobs));
    lines.push(counted("moves", &c.moves));
    lines
}

/// The numbers of a text in order, comments and words passed over.
pub struct Numbers {
    numbers: Vec<u32>,
    at: usize,
}

impl Numbers {
    pub fn new(text: &str) -> Self {
        let numbers = text
            .lines()
            .map(|l| l.split('#').next().unwrap())
            .flat_map(str::split_whitespace)
            .filter(|w| w.starts_with(|c: char| c.is_ascii_digit()))
            .map(|w| w.parse().unwrap_or_else(|_| panic!("not a u32: {}", w)))
            .collect();
        Numbers { numbers, at: 0 }
    }

    pub fn one(&mut self) -> u32 {
        self.at += 1;
        *self.numbers.get(self.at - 1).expect("the text ends early")
    }

    pub fn size(&mut self) -> usize {
        self.one() as usize
    }

    pub fn run(&mut self, length: usize) -> Vec<u32> {
        (0..length).map(|_| self.one()).collect()
    }

    pub fn counted(&mut self) -> Vec<u32> {
        let length = self.size();
        self.run(length)
    }

    pub fn count_and_sum(&self) -> (usize, u32) {
        let sum = self
            .numbers
            .iter()
            .fold(0u32, |sum, x| sum.wrapping_add(*x));
        (self.numbers.len(), sum)
    }

    pub fn at_end(&self) -> bool {
        self.at == self.numbers.len()
    }

    fn entries(&mut self, length: usize) -> Vec<Entry> {
        let nodes = self.run(length);
        nodes.into_iter().zip(self.run(length)).collect()
    }

    fn lanes(&mut self, dimension: usize, nodes: usize) -> Lanes {
        let bits = self.run(dimension * nodes);
        Lanes {
            dimension,
            nodes,
            bits,
        }
    }

    pub fn state(&mut self, n: usize, k: usize) -> State {
        let lists = self.entries(n * k);
        let contexts = (0..n).map(|_| [(); 4].map(|_| self.counted())).collect();
        let visited = self.run((n * n + 31) / 32);
        State {
            lists,
            contexts,
            visited,
        }
    }

    /// The input of a case, after its running number.
    pub fn case(&mut self) -> Case {
        let kind = self.one();
        let (dimension, nodes) = (self.size(), self.size());
        match kind {
            1 => Case::Build(self.build(dimension, nodes)),
            2 => Case::Search(self.search(dimension, nodes)),
            3 => Case::Descent(self.descent(dimension, nodes)),
            4 => Case::Iterate(self.iterate(dimension, nodes)),
            5 => Case::Relay(self.relay(dimension, nodes)),
            6 => Case::Links(self.links(dimension, nodes)),
            other => panic!("no kind has the number {}", other),
        }
    }

    // Each kind's fields are read in the order in which they stand in the text.
    fn build(&mut self, dimension: usize, nodes: usize) -> Build {
        let (init_k, index_size) = (self.size(), self.size());
        let (neighbor_neighbor_size, threshold) = (self.size(), self.one());
        Build {
            init_k,
            index_size,
            neighbor_neighbor_size,
            threshold,
            lanes: self.lanes(dimension, nodes),
        }
    }

    fn search(&mut self, dimension: usize, nodes: usize) -> Search {
        let (index_size, k) = (self.size(), self.size());
        Search {
            index_size,
            k,
            roots: self.counted(),
            lanes: self.lanes(dimension, nodes),
            query: self.run(dimension),
            graph: self.run(nodes * index_size),
        }
    }

    fn descent(&mut self, dimension: usize, nodes: usize) -> Descent {
        let (k, s) = (self.size(), self.size());
        Descent {
            k,
            s,
            lanes: self.lanes(dimension, nodes),
            begin_draws: self.counted(),
            iteration_draws: (0..self.size()).map(|_| self.counted()).collect(),
        }
    }

    fn iterate(&mut self, dimension: usize, nodes: usize) -> Iterate {
        let (k, s) = (self.size(), self.size());
        Iterate {
            k,
            s,
            lanes: self.lanes(dimension, nodes),
            state: self.state(nodes, k),
            draws: self.counted(),
        }
    }

    fn relay(&mut self, dimension: usize, nodes: usize) -> Relay {
        let k = self.size();
        Relay {
            k,
            lanes: self.lanes(dimension, nodes),
            lists: self.entries(nodes * k),
            jobs: (0..self.size()).map(|_| (self.one(), self.one())).collect(),
            moves: self.counted(),
        }
    }

    fn links(&mut self, dimension: usize, nodes: usize) -> Links {
        let (index_size, threshold) = (self.size(), self.one());
        Links {
            index_size,
            threshold,
            lanes: self.lanes(dimension, nodes),
            rows: self.entries(nodes * index_size),
        }
    }
}
