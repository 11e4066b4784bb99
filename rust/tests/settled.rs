//! The settled squares C to G and J of document 01 over the boundary, and the refusals of a build, a search and a descent in words.
use spoonmeadow::{Call, Descent, Error, Game, Params, Points, Scratch};

fn squares() -> Points {
    Points::new(1, vec![0.0, 1.0, 3.0, 7.0])
}

fn params() -> Params {
    Params::default()
        .init_k(2)
        .index_size(2)
        .neighbor_neighbor_size(10)
        .threshold(0.5)
}

fn named(game: &Game, roots: &[u32], query: f32, k: usize) -> (Vec<(u32, f32)>, usize) {
    let found = game.search(roots, &[query], k).unwrap();
    let pairs = found
        .neighbors
        .iter()
        .map(|e| (e.node, e.distance))
        .collect();
    (pairs, found.takings)
}

fn words<T>(answer: Result<T, Error>) -> String {
    answer.err().map_or("done".to_string(), |r| r.to_string())
}

#[test]
fn c_the_graphs() {
    let narrow = Game::teach(squares(), params()).unwrap();
    assert_eq!(narrow.graph(), [1, 2, 0, 2, 1, 2, 2, 4]);
    assert_eq!(narrow.row(3), [2]);
    let wide = Game::teach(squares(), params().index_size(3)).unwrap();
    assert_eq!(wide.graph(), [1, 4, 4, 0, 2, 4, 1, 4, 4, 2, 4, 4]);
}

#[test]
fn d_to_g_the_searches() {
    let game = Game::with_graph(squares(), 2, vec![1, 2, 0, 2, 1, 2, 2, 4]);
    assert_eq!(named(&game, &[0], 7.0, 2), (vec![(2, 16.0)], 2));
    assert_eq!(
        named(&game, &[0, 3], 7.0, 2),
        (vec![(3, 0.0), (2, 16.0)], 3)
    );
    assert_eq!(named(&game, &[0, 3], 7.0, 1), (vec![(3, 0.0)], 1));
    assert_eq!(named(&game, &[1], 2.0, 1), (vec![(2, 1.0)], 2));
}

#[test]
fn scratch_serves_again() {
    let game = Game::teach(squares(), params()).unwrap();
    let mut scratch = Scratch::new();
    for _ in 0..3 {
        let found = game.search_in(&mut scratch, &[0, 3], &[7.0], 2).unwrap();
        assert_eq!(found, game.search(&[0, 3], &[7.0], 2).unwrap());
    }
}

#[test]
fn j_the_refusals() {
    let game = Game::teach(squares(), params()).unwrap();
    assert_eq!(words(game.search(&[0], &[7.0], 64)), "done");
    assert_eq!(
        words(game.search(&[0], &[7.0], 65)),
        "4: a whole-number parameter is outside its range"
    );
    let one = Game::teach(Points::new(1, vec![0.0]), params());
    assert_eq!(words(one), "2: the number of nodes is outside 2 to 4,096");
    let twice = game.search(&[0, 0], &[7.0], 2).unwrap_err();
    let twice = twice.refusal().unwrap();
    assert_eq!(
        (twice.number(), twice.places(), twice.call()),
        (7, (1, 0), Call::Search)
    );
    assert_eq!(
        twice.to_string(),
        "7: the root at place 1 is no node, or repeats an earlier one"
    );
    let nan = game.search(&[0, 3], &[f32::NAN], 2).unwrap_err();
    let nan = nan.refusal().unwrap();
    assert_eq!((nan.number(), nan.places()), (10, (0, 4)));
    assert_eq!(
        nan.to_string(),
        "10: the distance of node 0 and the query is unfit"
    );
}

fn teach(dimension: usize, lanes: &[f32], params: Params) -> String {
    words(Game::teach(Points::new(dimension, lanes.to_vec()), params))
}

#[test]
fn refusals_of_a_build_in_words() {
    let lanes = [0.0, 1.0, 3.0, 7.0];
    let dimension = "1: the dimension is outside 1 to 64";
    assert_eq!(teach(0, &lanes, params()), dimension);
    assert_eq!(teach(65, &[0.0; 130], params()), dimension);
    assert_eq!(
        teach(1, &[0.0; 4097], params()),
        "2: the number of nodes is outside 2 to 4,096"
    );
    assert_eq!(
        teach(3, &[0.0; 7], params()),
        "3: there are not as many lanes as nodes times the dimension"
    );
    for p in [
        params().init_k(0),
        params().index_size(usize::MAX),
        params().neighbor_neighbor_size(257),
    ] {
        assert_eq!(
            teach(1, &lanes, p),
            "4: a whole-number parameter is outside its range"
        );
    }
    assert_eq!(
        teach(1, &lanes, params().threshold(f32::NAN)),
        "5: the threshold is not a number, or outside -1 to 1"
    );
}

#[test]
fn unfit_pairs_in_words() {
    let far = [0.0, 1.0, 2.0, 3.0, 4.0, 5.0, 6.0, f32::INFINITY];
    assert_eq!(
        teach(1, &far, params()),
        "10: the distance of nodes 0 and 7 is unfit"
    );
    let far = [0.0, 0.0, 0.0, -1.5e19, 0.0, 0.0, 0.0, 1.5e19];
    assert_eq!(
        teach(1, &far, params()),
        "10: the distance of nodes 3 and 7 is unfit"
    );
}

#[test]
fn refusals_of_a_search_in_words() {
    let short = Game::with_graph(squares(), 2, vec![4; 7]);
    assert_eq!(
        words(short.search(&[0], &[7.0], 1)),
        "6: a lent buffer has the wrong length"
    );
    let game = Game::with_graph(squares(), 2, vec![4; 8]);
    let none = "7: there are not 1 to 64 roots, or the root at place 0 is no node";
    assert_eq!(words(game.search(&[], &[7.0], 1)), none);
    assert_eq!(words(game.search(&[4], &[7.0], 1)), none);
    assert_eq!(
        words(game.search(&[0], &[], 1)),
        "8: the query has not as many lanes as the dimension"
    );
}

#[test]
fn refusals_of_a_descent_in_words() {
    let points = squares();
    let begin = |k, s, draws: &[u32]| words(Descent::begin(&points, k, s, draws));
    assert_eq!(begin(2, 2, &[1; 16]), "done");
    assert_eq!(begin(2, 2, &[1; 15]), "11: there are too few draws");
    assert_eq!(
        begin(usize::MAX, 2, &[1; 16]),
        "4: a whole-number parameter is outside its range"
    );
    let mut torn = Descent::with_state(&points, 2, 2, vec![7; 1049], vec![0.0; 8]);
    assert_eq!(
        words(torn.iterate(&[1; 16])),
        "12: the lists or the state are not well formed"
    );
    let mut short = Descent::with_state(&points, 2, 2, vec![], vec![]);
    assert_eq!(
        words(short.iterate(&[1; 16])),
        "6: a lent buffer has the wrong length"
    );
    assert!(short.lists().list(0).is_empty());
    let many = Points::new(1, vec![0.0; 1025]);
    assert_eq!(
        words(Descent::begin(&many, 2, 2, &[])),
        "2: the number of nodes is outside 2 to 1,024"
    );
}
