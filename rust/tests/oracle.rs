//! The oracle's own answers over the boundary: every build, search, descent, iteration and relay of oracle/lists/small.txt, which hora's Rust made.
use spoonmeadow::{Descent, Game, Lists, Params, Points, Relay};

/// A list as its numbers (oracle/README.md, "The format"), read from the front.
struct Numbers(std::vec::IntoIter<u32>);

impl Numbers {
    fn of_list() -> Numbers {
        let path = concat!(env!("CARGO_MANIFEST_DIR"), "/../oracle/lists/small.txt");
        let text = std::fs::read_to_string(path).unwrap();
        let lines = text
            .lines()
            .map(|line| line.split('#').next().unwrap_or(""));
        let numbers = lines.flat_map(|line| line.split(|c: char| !c.is_ascii_digit()));
        let all: Vec<u32> = numbers
            .filter(|digits| !digits.is_empty())
            .map(|digits| digits.parse().unwrap())
            .collect();
        Numbers(all.into_iter())
    }

    fn one(&mut self) -> usize {
        self.0.next().unwrap() as usize
    }

    fn words(&mut self, count: usize) -> Vec<u32> {
        let words: Vec<u32> = self.0.by_ref().take(count).collect();
        assert_eq!(words.len(), count);
        words
    }

    fn floats(&mut self, count: usize) -> Vec<f32> {
        self.words(count).into_iter().map(f32::from_bits).collect()
    }

    fn run(&mut self) -> Vec<u32> {
        let count = self.one();
        self.words(count)
    }

    fn lists(&mut self, n: usize, k: usize) -> Lists {
        let nodes = self.words(n * k);
        Lists::of_parts(n, k, nodes, self.floats(n * k))
    }

    /// The words of a descent's state as docs/LAYOUT.md places them, and its lists.
    fn state(&mut self, n: usize, k: usize) -> (Vec<u32>, Lists) {
        let lists = self.lists(n, k);
        let mut words = lists.nodes().to_vec();
        for _ in 0..4 * n {
            let members = self.run();
            words.push(members.len() as u32);
            words.extend(&members);
            words.resize(words.len() + 64 - members.len(), 0);
        }
        words.extend(self.words((n * n).div_ceil(32)));
        (words, lists)
    }
}

fn build(list: &mut Numbers) {
    let (d, n, init_k, size, hops) = (list.one(), list.one(), list.one(), list.one(), list.one());
    let threshold = f32::from_bits(list.one() as u32);
    let points = Points::new(d, list.floats(n * d));
    for _ in 0..n {
        list.run();
    }
    list.words(4 * n * size);
    let params = Params::default()
        .init_k(init_k)
        .index_size(size)
        .neighbor_neighbor_size(hops)
        .threshold(threshold);
    let game = Game::teach(points, params).unwrap();
    assert_eq!(game.graph(), list.words(n * size));
}

fn search(list: &mut Numbers) {
    let (d, n, size, k) = (list.one(), list.one(), list.one(), list.one());
    let roots = list.run();
    let points = Points::new(d, list.floats(n * d));
    let query = list.floats(d);
    let game = Game::with_graph(points, size, list.words(n * size));
    let found = game.search(&roots, &query, k).unwrap();
    let m = list.one();
    let nodes: Vec<u32> = found.neighbors.iter().map(|e| e.node).collect();
    let bits: Vec<u32> = found
        .neighbors
        .iter()
        .map(|e| e.distance.to_bits())
        .collect();
    assert_eq!((nodes, bits), (list.words(m), list.words(m)));
    assert_eq!(found.takings, list.one());
}

fn iterate(list: &mut Numbers, descent: &mut Descent, draws: &[u32], n: usize, k: usize) {
    let answer = descent.iterate(draws).unwrap();
    assert_eq!((answer.cost, answer.new), (list.one(), list.one()));
    let (words, lists) = list.state(n, k);
    assert_eq!(descent.words(), words);
    assert_eq!(descent.lists(), lists);
}

fn descent(list: &mut Numbers) {
    let (d, n, k, s) = (list.one(), list.one(), list.one(), list.one());
    let points = Points::new(d, list.floats(n * d));
    let draws = list.run();
    let turns: Vec<Vec<u32>> = (0..list.one()).map(|_| list.run()).collect();
    let mut descent = Descent::begin(&points, k, s, &draws).unwrap();
    let (words, lists) = list.state(n, k);
    assert_eq!(descent.words(), words);
    assert_eq!(descent.lists(), lists);
    for draws in turns {
        iterate(list, &mut descent, &draws, n, k);
    }
}

fn iteration(list: &mut Numbers) {
    let (d, n, k, s) = (list.one(), list.one(), list.one(), list.one());
    let points = Points::new(d, list.floats(n * d));
    let (words, lists) = list.state(n, k);
    let draws = list.run();
    let mut descent = Descent::with_state(&points, k, s, words, lists.distances().to_vec());
    iterate(list, &mut descent, &draws, n, k);
}

fn relay(list: &mut Numbers) {
    let (d, n, k) = (list.one(), list.one(), list.one());
    let points = Points::new(d, list.floats(n * d));
    let held = list.lists(n, k);
    let count = list.one();
    let jobs: Vec<(u32, u32)> = list
        .words(2 * count)
        .chunks(2)
        .map(|p| (p[0], p[1]))
        .collect();
    let moves = list.run();
    for _ in &moves {
        let long = list.one();
        list.words(2 * long);
    }
    let mut relay = Relay::open(&points, &held, &jobs).unwrap();
    for job in moves {
        relay.step(job as usize).unwrap();
    }
    let closed = relay.close().unwrap();
    assert_eq!(closed.lists, list.lists(n, k));
    let reports: Vec<u32> = closed
        .taken
        .iter()
        .flat_map(|&(a, b)| [a as u32, b as u32])
        .collect();
    assert_eq!(reports, list.words(2 * count));
}

#[test]
fn the_small_list() {
    let mut list = Numbers::of_list();
    let mut kinds = [0; 7];
    loop {
        if list.one() == 0 {
            break;
        }
        let kind = list.one();
        kinds[kind] += 1;
        match kind {
            1 => build(&mut list),
            2 => search(&mut list),
            3 => descent(&mut list),
            4 => iteration(&mut list),
            5 => relay(&mut list),
            _ => panic!("kind {kind}"),
        }
    }
    assert_eq!(list.one(), kinds.iter().sum::<usize>());
    assert_eq!(list.0.next(), None);
    assert_eq!(kinds, [0, 40, 32, 16, 11, 30, 0]);
}
