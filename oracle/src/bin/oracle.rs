//! Reads cases as text and writes them with hora's answers; `oracle replay` reads such a list and compares.

use oracle::cases::*;
use oracle::local::branches;
use oracle::run;
use oracle::text::*;
use std::collections::BTreeMap;
use std::io::{Read, Write};

fn main() {
    let mut text = String::new();
    std::io::stdin()
        .read_to_string(&mut text)
        .expect("text on stdin");
    match std::env::args().nth(1).as_deref() {
        None => answer(&text),
        Some("replay") => replay(&text),
        Some(other) => panic!("unknown word {}; say nothing or replay", other),
    }
}

/// The branches that a list's kinds of case can meet.
fn beginnings(cases: &[Case]) -> Vec<&'static str> {
    let has = |kinds: &[u32]| cases.iter().any(|c| kinds.contains(&c.kind()));
    let mut words = Vec::new();
    if has(&[1]) {
        words.extend(["step two", "step three"]);
    }
    if has(&[1, 6]) {
        words.extend(["step five", "cosine"]);
    }
    if has(&[2]) {
        words.push("search");
    }
    if has(&[3, 4]) {
        words.push("descent");
    }
    if has(&[3, 4, 5]) {
        words.push("offer");
    }
    if has(&[5]) {
        words.push("relay");
    }
    words
}

/// Neighbouring relays on the same lists and jobs must agree in the lists; their reports may differ.
fn compare_orders(cases: &[Case]) -> usize {
    let mut differ = 0;
    let mut last: Option<(&Relay, run::RelayAnswer)> = None;
    for case in cases {
        let Case::Relay(relay) = case else { continue };
        let answer = run::relay(relay);
        if let Some((before, its)) = &last {
            if same_start(before, relay) {
                assert_eq!(its.lists, answer.lists, "the order of moves changed a list");
                differ += (its.reports != answer.reports) as usize;
            }
        }
        last = Some((relay, answer));
    }
    differ
}

fn same_start(one: &Relay, other: &Relay) -> bool {
    one.lanes.bits == other.lanes.bits
        && one.k == other.k
        && one.lists == other.lists
        && one.jobs == other.jobs
}

fn read_cases(text: &str) -> Vec<Case> {
    let mut numbers = Numbers::new(text);
    let mut cases = Vec::new();
    loop {
        let number = numbers.size();
        if number == 0 {
            break;
        }
        assert_eq!(number, cases.len() + 1, "cases are numbered from 1 on");
        cases.push(numbers.case());
    }
    assert_eq!(numbers.size(), cases.len(), "the count at the end");
    assert!(numbers.at_end(), "numbers after the end");
    cases
}

fn answer(text: &str) {
    let cases = read_cases(text);
    let reorderings = compare_orders(&cases);
    let (body, meeting) = answered(&cases);
    let end = format!("end 0 cases {}\n", cases.len());
    let mut head = String::new();
    for line in text.lines().take_while(|l| l.starts_with('#')) {
        head.push_str(line);
        head.push('\n');
    }
    head.push_str(&branches_met(&cases, &meeting));
    if cases.iter().any(|c| c.kind() == 5) {
        let text = "relays whose reports differ from those of the order before";
        head.push_str(&format!("#   {}: {}\n", text, reorderings));
    }
    let sum = sum_of(&Numbers::new(&(body.clone() + &end)));
    head.push_str(&format!("# {}\n", sum));
    let mut out = std::io::stdout().lock();
    write!(out, "{}{}{}", head, body, end).expect("stdout");
}

/// In how many cases each branch was met.
type Meeting = BTreeMap<&'static str, usize>;

/// Each case with its answer and the branches that it meets.
fn answered(cases: &[Case]) -> (String, Meeting) {
    branches::set_counts(BTreeMap::new());
    let mut body = String::new();
    let mut meeting = Meeting::new();
    for (i, case) in cases.iter().enumerate() {
        let before = branches::counts();
        let answers = run::answer_lines(case);
        for line in input_lines(i + 1, case).iter().chain(&answers) {
            body.push_str(&line.0);
            body.push('\n');
        }
        let met = branches::met_since(&before);
        body.push_str(&format!("# meets: {}\n", met.join("; ")));
        met.into_iter()
            .for_each(|name| *meeting.entry(name).or_insert(0) += 1);
    }
    (body, meeting)
}

fn branches_met(cases: &[Case], meeting: &Meeting) -> String {
    let mut text = String::from("# Branches met, counted inside the Rust while it answered:\n");
    for name in branches::names(&beginnings(cases)) {
        let in_cases = meeting.get(name).copied().unwrap_or(0);
        let count = branches::count(name);
        text.push_str(&format!("#   {}: {} in {} cases\n", name, count, in_cases));
    }
    text
}

/// Reads a list with answers; a digit that differs, or a list cut short, ends it with a failure.
fn replay(text: &str) {
    let mut numbers = Numbers::new(text);
    let mut done = 0;
    loop {
        let number = numbers.size();
        if number == 0 {
            break;
        }
        assert_eq!(number, done + 1, "cases are numbered from 1 on");
        let case = numbers.case();
        let said: Vec<u32> = run::answer_lines(&case)
            .iter()
            .flat_map(|line| numbers_of(&line.0))
            .collect();
        let listed = numbers.run(said.len());
        assert!(said == listed, "case {} differs", number);
        done += 1;
    }
    assert_eq!(numbers.size(), done, "the count at the end");
    assert!(numbers.at_end(), "numbers after the end");
    let sum = sum_of(&numbers);
    let said = format!("# {}", sum);
    assert!(
        text.lines().any(|l| l == said),
        "the sum at the head is another: {}",
        sum
    );
    println!("{} cases, each as the Rust answers. {}", done, sum);
}

/// A reader that works out this sum notices any one changed digit, of an input too.
fn sum_of(numbers: &Numbers) -> String {
    let (count, sum) = numbers.count_and_sum();
    format!(
        "Numbers in the list: {}, their sum modulo 4294967296: {}",
        count, sum
    )
}

fn numbers_of(line: &str) -> Vec<u32> {
    line.split_whitespace()
        .filter_map(|w| w.parse().ok())
        .collect()
}
