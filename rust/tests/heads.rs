//! One relay driven by four threads, again and again: its lists are always the same, and the least k of what was held and offered.
use spoonmeadow::{Closed, Error, Heads, Lists, Neighbor, Points, Relay, STEPS};

const ROUNDS: usize = 400;
const NODES: usize = 24;
const K: usize = 5;

/// Marsaglia's xorshift, so that every run is the same.
struct Draws(u32);

impl Draws {
    fn below(&mut self, bound: usize) -> usize {
        self.0 ^= self.0 << 13;
        self.0 ^= self.0 >> 17;
        self.0 ^= self.0 << 5;
        self.0 as usize % bound
    }
}

/// Counters on a line whose places repeat, so that distances tie.
fn points(draws: &mut Draws) -> Points {
    Points::new(1, (0..NODES).map(|_| draws.below(12) as f32).collect())
}

/// Pairs that crowd on a few nodes, some of them a node with itself.
fn jobs(draws: &mut Draws) -> Vec<(u32, u32)> {
    let count = 1 + draws.below(64);
    (0..count)
        .map(|_| (draws.below(4) as u32, draws.below(NODES) as u32))
        .collect()
}

fn apart(points: &Points, u: u32, v: u32) -> f32 {
    let t = points.lanes()[u as usize] - points.lanes()[v as usize];
    0.0 + t * t
}

/// The least k of what each list held and what was offered to it, by distance and then number.
fn least(points: &Points, held: &Lists, jobs: &[(u32, u32)]) -> Vec<Vec<Neighbor>> {
    let mut lists: Vec<Vec<Neighbor>> = (0..NODES).map(|u| held.list(u)).collect();
    for &(u, v) in jobs.iter().filter(|(u, v)| u != v) {
        let distance = apart(points, u, v);
        lists[u as usize].push(Neighbor { node: v, distance });
        lists[v as usize].push(Neighbor { node: u, distance });
    }
    for list in &mut lists {
        list.sort_by_key(|e| (e.distance.to_bits(), e.node));
        list.truncate(K);
    }
    lists
}

/// By one thread, job by job.
fn alone(points: &Points, held: &Lists, jobs: &[(u32, u32)]) -> Result<Closed, Error> {
    let mut relay = Relay::open(points, held, jobs)?;
    for job in 0..jobs.len() {
        for _ in 0..STEPS {
            relay.step(job)?;
        }
    }
    relay.close()
}

fn together(points: &Points, held: &Lists, jobs: &[(u32, u32)]) -> Result<Closed, Error> {
    let heads = Heads::new(Relay::open(points, held, jobs)?);
    heads.drive(4)?;
    heads.into_relay().close()
}

/// Four threads that each take one step of any unfinished job and hand over, so that the steps of different jobs mix at every turn.
fn mixed(points: &Points, held: &Lists, jobs: &[(u32, u32)]) -> Result<Closed, Error> {
    let heads = Heads::new(Relay::open(points, held, jobs)?);
    std::thread::scope(|scope| {
        for head in 0..4 {
            let heads = &heads;
            scope.spawn(move || {
                for turn in 0..STEPS {
                    for job in (head..jobs.len()).step_by(4) {
                        heads
                            .step(job)
                            .unwrap_or_else(|r| panic!("step {turn}: {r}"));
                        std::thread::yield_now();
                    }
                }
            });
        }
    });
    heads.into_relay().close()
}

/// An offer that ends in its list was reported taken up, and no pair of a node with itself was.
fn reports_hold(closed: &Closed, held: &Lists, jobs: &[(u32, u32)]) {
    let entered = |u: u32, v: u32| {
        let count = |l: &Lists| l.list(u as usize).iter().filter(|e| e.node == v).count();
        count(&closed.lists) > count(held)
    };
    for (&(u, v), &taken) in jobs.iter().zip(&closed.taken) {
        assert!(u != v || taken == (false, false));
        let offered = |a: u32, b: u32| {
            jobs.iter()
                .filter(|&&(x, y)| (x, y) == (a, b) || (y, x) == (a, b))
                .count()
        };
        if u != v && offered(u, v) == 1 {
            assert!(taken.0 || !entered(u, v));
            assert!(taken.1 || !entered(v, u));
        }
    }
    assert_eq!(closed.taken.len(), jobs.len());
}

#[test]
fn four_threads_many_times() {
    let mut draws = Draws(2463534242);
    let mut held = Lists::unfilled(NODES, K);
    let mut points_now = points(&mut draws);
    for round in 0..ROUNDS {
        if round % 8 == 0 {
            points_now = points(&mut draws);
            held = Lists::unfilled(NODES, K);
        }
        let jobs = jobs(&mut draws);
        let one = alone(&points_now, &held, &jobs).unwrap();
        let expected = least(&points_now, &held, &jobs);
        for four in [
            together(&points_now, &held, &jobs),
            mixed(&points_now, &held, &jobs),
        ] {
            let four = four.unwrap();
            assert_eq!(four.lists, one.lists, "round {round}");
            reports_hold(&four, &held, &jobs);
        }
        let lists: Vec<_> = (0..NODES).map(|u| one.lists.list(u)).collect();
        assert_eq!(lists, expected, "round {round}");
        held = one.lists;
    }
}

#[test]
fn i_the_relay() {
    let points = Points::new(1, vec![0.0, 1.0, 3.0, 7.0]);
    let closed = together(&points, &Lists::unfilled(4, 2), &[(0, 1), (0, 3), (0, 2)]).unwrap();
    let pairs = |u| {
        closed
            .lists
            .list(u)
            .iter()
            .map(|e| (e.node, e.distance))
            .collect::<Vec<_>>()
    };
    assert_eq!(pairs(0), [(1, 1.0), (2, 9.0)]);
    assert_eq!(
        (pairs(1), pairs(2), pairs(3)),
        (vec![(0, 1.0)], vec![(0, 9.0)], vec![(0, 49.0)])
    );
}

#[test]
fn refusals_of_an_open_in_words() {
    let points = Points::new(1, vec![0.0, 1.0, 3.0, f32::NAN]);
    let lists = Lists::unfilled(4, 2);
    let refused = |lists: &Lists, jobs: &[(u32, u32)]| {
        Relay::open(&points, lists, jobs).unwrap_err().to_string()
    };
    assert_eq!(
        refused(&Lists::unfilled(4, 65), &[(0, 1)]),
        "4: a whole-number parameter is outside its range"
    );
    assert_eq!(
        refused(&Lists::unfilled(3, 2), &[(0, 1)]),
        "6: a lent buffer has the wrong length"
    );
    assert_eq!(
        refused(&lists, &[]),
        "9: there are not 1 to 64 jobs, or job 0 names no node"
    );
    assert_eq!(refused(&lists, &[(0, 1), (1, 4)]), "9: job 1 names no node");
    assert_eq!(
        refused(&lists, &[(3, 3), (3, 1)]),
        "10: the distance of nodes 3 and 1 is unfit"
    );
    let torn = Lists::of_parts(4, 2, vec![0; 8], vec![f32::INFINITY; 8]);
    assert_eq!(
        refused(&torn, &[(0, 1)]),
        "12: the lists or the state are not well formed"
    );
}

#[test]
fn refusals_of_moves_and_closes_in_words() {
    let points = Points::new(1, vec![0.0, 1.0, 3.0, f32::NAN]);
    let mut relay = Relay::open(&points, &Lists::unfilled(4, 2), &[(0, 1), (3, 3)]).unwrap();
    assert_eq!(
        relay.close().unwrap_err().to_string(),
        "13: job 0 is unfinished"
    );
    assert_eq!(
        relay.step(2).unwrap_err().to_string(),
        "13: job 2 is absent or finished"
    );
    for _ in 0..STEPS {
        relay.step(0).unwrap();
    }
    assert_eq!(
        relay.step(0).unwrap_err().to_string(),
        "13: job 0 is absent or finished"
    );
    assert_eq!(
        relay.close().unwrap_err().to_string(),
        "13: job 1 is unfinished"
    );
}
