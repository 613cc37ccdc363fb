//! The library beside two Rust programs, on equal input in one run: (a) document 003's Algorithm 1 with adjacency lists,
//! rebuilt after each message, and (b) the library's own algorithm, but for a peel. Prints the tables of docs/BENCHMARK.md.

mod covers;
mod crowds;
#[path = "../../differential/src/kernel.rs"]
mod kernel;
#[path = "../../bindings/rust/tests/lent/mod.rs"]
mod lent;
mod lists;
mod lookups;
mod memory;
mod minimums;
mod previews;
mod stack;
mod tables;

use board::{Board, Memory, Message};
use lists::Lists;
use std::cell::RefCell;
use std::hint::black_box;
use std::time::Instant;
use tables::Tables;

const START: u32 = 1;
const ROUNDS: usize = 41;

/// A sequence of numbers from a seed (xorshift).
struct Numbers(u64);

impl Numbers {
    fn below(&mut self, limit: usize) -> usize {
        self.0 ^= self.0 << 13;
        self.0 ^= self.0 >> 7;
        self.0 ^= self.0 << 17;
        (self.0 >> 16) as usize % limit
    }
}

/// One size of board: its pairs at random, and messages that withdraw a listed pair and grant an unlisted one in turn. Four
/// messages share a stamp, with revisions from 0 to 3. Those of `leaving` set a tenth of the operators off and a tenth of the
/// rides out.
struct Case {
    operators: u16,
    rides: u16,
    pairs: Vec<(u16, u16)>,
    messages: Vec<Message>,
    leaving: Vec<Message>,
}

impl Case {
    fn new(operators: u16, rides: u16, count: usize, messages: usize) -> Case {
        let mut numbers = Numbers(0x9E37_79B9_7F4A_7C15 ^ count as u64);
        let mut listed: Vec<(u16, u16)> = (0..operators).flat_map(|u| (0..rides).map(move |v| (u, v))).collect();
        let mut others = Vec::new();
        while count < listed.len() {
            others.push(listed.swap_remove(numbers.below(listed.len())));
        }
        let mut pairs = listed.clone();
        pairs.sort();
        let stamp = |place: usize| START + 1 + place as u32 / 4;
        let messages = (0..messages)
            .map(|place| {
                let (from, to) = if place % 2 == 0 { (&mut listed, &mut others) } else { (&mut others, &mut listed) };
                let pair = from.swap_remove(numbers.below(from.len()));
                to.push(pair);
                let make = if place % 2 == 0 { Message::withdrawal } else { Message::grant };
                make(pair.0, pair.1, stamp(place)).with_revision(place as u16 % 4)
            })
            .collect();
        let off = (0..operators).step_by(10).map(|operator| Message::operator_off(operator, START));
        let leaving = off.chain((0..rides).step_by(10).map(|ride| Message::ride_out(ride, START))).collect();
        Case { operators, rides, pairs, messages, leaving }
    }

    fn nodes(&self) -> usize {
        self.operators as usize + self.rides as usize
    }

    /// The limits alpha of each operator and beta of each ride, as a list.
    fn limit_list(&self, (alpha, beta): (u16, u16)) -> Vec<u16> {
        [vec![alpha; self.operators as usize], vec![beta; self.rides as usize]].concat()
    }

    fn line(&self, call: &'static str, times: [Vec<f64>; 3]) -> Line {
        Line { call, operators: self.operators, rides: self.rides, pairs: self.pairs.len(), times }
    }

    fn tell(&self, call: &str) {
        eprintln!("measures {call}, {} × {}, {} pairs", self.operators, self.rides, self.pairs.len());
    }
}

fn median(mut numbers: Vec<f64>) -> f64 {
    numbers.sort_by(f64::total_cmp);
    numbers[numbers.len() / 2]
}

/// A program's time over another's: the median of the rounds' ratios.
fn ratio(times: &[f64], others: &[f64]) -> f64 {
    median(times.iter().zip(others).map(|(time, other)| time / other).collect())
}

/// Whether each ratio is within so much, and where it isn't.
fn goal(ratios: &[(String, f64)], most: f64) -> String {
    let over = ratios.iter().filter(|(_, ratio)| most < *ratio);
    let over: Vec<String> = over.map(|(place, ratio)| format!("{place}: {ratio:.2}")).collect();
    if over.is_empty() {
        "reached".to_string()
    } else {
        format!("NOT reached at {}", over.join("; "))
    }
}

/// The time of one call in microseconds, of each program in each round. The programs take turns, so that in a round all
/// see the same machine.
fn measure<const N: usize>(calls: usize, programs: &mut [&mut dyn FnMut(); N]) -> [Vec<f64>; N] {
    let mut times = [const { Vec::new() }; N];
    for round in 0..ROUNDS + 2 {
        for (program, times) in programs.iter_mut().zip(&mut times) {
            let begin = Instant::now();
            (0..calls).for_each(|_| program());
            let time = begin.elapsed().as_secs_f64() * 1e6 / calls as f64;
            if 2 <= round {
                times.push(time);
            }
        }
    }
    times
}

/// The limits of a query, and of a peel that drops everybody: alpha is two thirds of the operators' mean degree, beta one
/// more than the level of the ride in the middle of that row.
fn limits(case: &Case, board: &Board) -> (u16, u16) {
    let alpha = (case.pairs.len() / case.operators as usize * 2 / 3).max(1) as u16;
    let mut levels = board.row(alpha).unwrap()[case.operators as usize..].to_vec();
    levels.sort();
    (alpha, levels[levels.len() / 2] + 1)
}

/// The limits that drop about half: of all, those whose cover has the number of nodes nearest to half, the first of equals.
/// Above the number of rides and of operators limits drop the same.
fn half(case: &Case, board: &Board) -> (u16, u16) {
    let mut marks = vec![0; case.nodes()];
    let mut off = |&(alpha, beta): &(u16, u16)| {
        let counts = board.query(alpha, beta, &mut marks).unwrap();
        case.nodes().abs_diff(2 * (counts.operators as usize + counts.rides as usize))
    };
    let all = (0..=case.rides + 1).flat_map(|alpha| (0..=case.operators + 1).map(move |beta| (alpha, beta)));
    all.min_by_key(|limits| off(limits)).unwrap()
}

/// One line of the table: microseconds of the library, (a) and (b), in each round; none where there is no such program.
struct Line {
    call: &'static str,
    operators: u16,
    rides: u16,
    pairs: usize,
    times: [Vec<f64>; 3],
}

impl Line {
    fn has(&self, program: usize) -> bool {
        !self.times[program].is_empty()
    }

    fn time(&self, program: usize) -> f64 {
        median(self.times[program].clone())
    }

    /// The library's time over another program's.
    fn ratio(&self, program: usize) -> f64 {
        ratio(&self.times[0], &self.times[program])
    }
}

/// The times of a query beside the Rust loop, and the marks. Both read the board's index and presence words and write the
/// same marks.
fn queries(case: &Case, board: &Board, alpha: u16, beta: u16) -> ([Vec<f64>; 3], Vec<u16>) {
    let marks = RefCell::new(vec![0; case.nodes()]);
    let ask = || board.query(black_box(alpha), black_box(beta), &mut marks.borrow_mut()).unwrap();
    let words = board.words();
    let look = || {
        let (n, m) = (case.operators as usize, case.rides as usize);
        tables::query(black_box(&words), n, m, black_box(alpha), black_box(beta), &mut marks.borrow_mut())
    };
    let mut ask_it = || {
        black_box(ask());
    };
    let mut look_at_it = || {
        black_box(look());
    };
    let [library, same] = measure(2000, &mut [&mut ask_it, &mut look_at_it]);
    let (counts, asked) = (ask(), marks.replace(vec![0; case.nodes()]));
    assert!((counts.operators, counts.rides) == look() && asked == *marks.borrow());
    ([library, Vec::new(), same], asked)
}

/// The times of a peel from all ones, with all steps allowed and without minimums. It leaves the marks of a query.
fn peels(case: &Case, board: &Board, tables: &Tables, (alpha, beta): (u16, u16)) -> [Vec<f64>; 3] {
    let (limits, none) = (case.limit_list((alpha, beta)), vec![0; case.rides as usize]);
    let (mut marks, mut same) = (Vec::new(), Vec::new());
    let (mut peeled, mut listed, mut again) = (None, None, None);
    let (n, presence) = (case.operators as usize, board.words().presence);
    let times = measure(
        10,
        &mut [
            &mut || {
                marks = vec![1; case.nodes()];
                peeled = Some(board.peel(&none, &mut marks, alpha, beta, u16::MAX).unwrap());
            },
            &mut || listed = Some(lists::peel(n, black_box(presence), black_box(&case.pairs), black_box(&limits))),
            &mut || {
                same = vec![1; case.nodes()];
                again = black_box(tables).peel(&mut same, alpha, beta, u16::MAX);
            },
        ],
    );
    let (peeled, listed) = (peeled.unwrap(), listed.unwrap());
    assert!(peeled.settled && marks == listed.0 && peeled.steps == listed.1 && marks == same);
    assert!(again == Some((true, peeled.steps)));
    board.query(alpha, beta, &mut same).unwrap();
    assert!(marks == same);
    times
}

/// Queries and a peel where a tenth is off or out, and queries with limits of 0 there, which mark as a peel does.
fn run_with_some_away(case: &Case) -> Vec<Line> {
    let (operators, rides) = (case.operators, case.rides);
    let mut memory = Box::new(Memory::new());
    let mut board = Board::build(memory.parts(), operators, rides, &case.pairs, START).unwrap();
    let mut lists = Lists::build(operators, rides, &case.pairs, START);
    let mut tables = Tables::new(operators, rides, &case.pairs);
    assert!(tables.build(START));
    for &one in &case.leaving {
        let differ = Some(board.message(one).unwrap());
        assert!(differ == lists.message(one) && differ == tables.message(one));
    }
    assert!(board.words() == tables.words() && board.words().index == lists.index);
    let (alpha, beta) = limits(case, &board);
    let line = |(call, alpha, beta)| {
        case.tell(call);
        let (times, asked) = queries(case, &board, alpha, beta);
        let (n, presence) = (operators as usize, board.words().presence);
        assert!(asked == lists::peel(n, presence, &case.pairs, &case.limit_list((alpha, beta))).0);
        case.line(call, times)
    };
    let asked = [
        ("query, a tenth off or out", alpha, beta),
        ("query, the same, α = 0", 0, beta),
        ("query, the same, β = 0", alpha, 0),
        ("query, the same, α = β = 0", 0, 0),
        ("query, the same, α above rides, β = 0", rides + 1, 0),
    ];
    let mut lines: Vec<Line> = asked.map(line).into();
    let call = "peel, a tenth off or out";
    case.tell(call);
    lines.push(case.line(call, peels(case, &board, &tables, half(case, &board))));
    lines
}

fn run(case: &Case) -> Vec<Line> {
    let (n, m) = (case.operators, case.rides);
    let mut lines = Vec::new();
    let mut memory = Box::new(Memory::new());

    // Build. The library's and (b)'s memory is lent and the pairs stand in it, (a) makes its lists of the pairs.
    case.tell("build");
    let (mut tables, mut lent) = (Tables::new(n, m, &case.pairs), Tables::new(n, m, &case.pairs));
    lent.revisions.fill(9);
    lent.presence.fill(9);
    let head = board::Head { operators: n, rides: m, pairs: case.pairs.len() as u16 };
    let mut lists = Lists::build(n, m, &case.pairs, START);
    let times = measure(
        10,
        &mut [
            &mut || board::build(head, &mut lent.parts(), START).unwrap(),
            &mut || lists = Lists::build(n, m, black_box(&case.pairs), START),
            &mut || assert!(black_box(&mut tables).build(START)),
        ],
    );
    assert!(lent.index == lists.index && lent.words() == tables.words());
    lines.push(case.line("build", times));

    // Query, after the build.
    case.tell("query");
    let mut board = Board::build(memory.parts(), n, m, &case.pairs, START).unwrap();
    let (alpha, beta) = limits(case, &board);
    let (times, asked) = queries(case, &board, alpha, beta);
    assert!(asked.iter().all(|mark| *mark == 0));
    lines.push(case.line("query", times));

    // Peels, covers under limits, crowd covers and own covers.
    for (call, limits) in PEELS.into_iter().zip([half(case, &board), (alpha, beta)]) {
        case.tell(call);
        lines.push(case.line(call, peels(case, &board, &tables, limits)));
    }
    lines.extend(covers::lines(case, &board, half(case, &board), covers::HALF));
    lines.extend(covers::lines(case, &board, (alpha, beta), covers::EVERYBODY));

    // Message: all are taken.
    case.tell("message");
    let mut next = [0; 3];
    let mut turn = |program: usize| {
        next[program] += 1;
        case.messages[next[program] - 1]
    };
    let mut differ = [0u64; 3];
    let turn = RefCell::new(&mut turn);
    let [first, second, third] = &mut differ;
    let times = measure(
        case.messages.len() / (ROUNDS + 2),
        &mut [
            &mut || *first += board.message(turn.borrow_mut()(0)).unwrap() as u64,
            &mut || *second += lists.message(turn.borrow_mut()(1)).unwrap() as u64,
            &mut || *third += tables.message(turn.borrow_mut()(2)).unwrap() as u64,
        ],
    );
    assert!(board.words().index == lists.index && differ[0] == differ[1] && differ[0] == differ[2]);
    assert!(board.words() == tables.words());
    lines.push(case.line("message", times));
    lines
}

const BURST: usize = 1000;

/// A message list of taken messages, which fills the index once, beside (a), which rebuilds it after each of them: in each of
/// some rounds the milliseconds of both.
fn bursts() -> [Vec<f64>; 2] {
    let rounds = 5;
    eprintln!("measures message lists of {BURST}, 200 × 60, 6000 pairs");
    let case = Case::new(200, 60, 6000, rounds * BURST);
    let mut memory = Box::new(Memory::new());
    let mut board = Board::build(memory.parts(), 200, 60, &case.pairs, START).unwrap();
    let mut lists = Lists::build(200, 60, &case.pairs, START);
    let mut answers = [1; BURST];
    let mut times = [const { Vec::new() }; 2];
    for list in case.messages.chunks(BURST) {
        let begin = Instant::now();
        assert!(board.messages(black_box(list), &mut answers).unwrap().iter().all(|answer| answer.is_ok()));
        times[0].push(begin.elapsed().as_secs_f64() * 1e3);
        let begin = Instant::now();
        for one in list {
            black_box(lists.message(*one).unwrap());
        }
        times[1].push(begin.elapsed().as_secs_f64() * 1e3);
        assert!(board.words().index == lists.index);
    }
    times
}

fn print_bursts() {
    let most = 0.01;
    let [library, lists] = bursts();
    let ratio = ratio(&library, &lists);
    let reached = if ratio <= most { "reached" } else { "NOT reached" };
    println!(
        "A message list of {BURST} taken messages at 200 × 60 and 6,000 pairs, medians of {} rounds:\n",
        library.len()
    );
    println!("- library {:.1} ms, (a) {:.0} ms", median(library), median(lists));
    println!("- at most {most} × (a): {ratio:.4}, {reached}\n");
}

/// By call, in the order in which each first comes; lines of one call stay in their order.
fn sort(lines: &mut [Line]) {
    let first: Vec<&str> = lines.iter().map(|line| line.call).collect();
    let words = ["build", "query", "peel", "cover", "crowd cover", "own cover", "message"];
    lines.sort_by_key(|line| {
        let word = words.iter().position(|word| line.call.starts_with(word));
        (word, first.iter().position(|call| *call == line.call))
    });
}

fn print_lines(lines: &[Line]) {
    println!("| Call | Board | Pairs | library µs | (a) µs | (b) µs | library / (a) | library / (b) |");
    println!("|---|---|---:|---:|---:|---:|---:|---:|");
    for line in lines {
        let digits = match line.call {
            call if call.starts_with("query") => 3,
            call if call.contains("cover") => 2,
            _ => 1,
        };
        let [lists, same] = [1, 2].map(|program| match line.has(program) {
            true => (format!("{:.digits$}", line.time(program)), format!("{:.2}", line.ratio(program))),
            false => Default::default(),
        });
        println!(
            "| {} | {} × {} | {} | {:.digits$} | {} | {} | {} | {} |",
            line.call,
            line.operators,
            line.rides,
            line.pairs,
            line.time(0),
            lists.0,
            same.0,
            lists.1,
            same.1
        );
    }
    println!();
}

/// The limits that drop about half, and how many are kept.
fn print_halves(cases: &[Case]) {
    println!("Limits that drop about half, for the peels and covers where the table doesn't say that everybody is dropped:\n");
    for case in cases {
        let mut memory = Box::new(Memory::new());
        let board = Board::build(memory.parts(), case.operators, case.rides, &case.pairs, START).unwrap();
        let (alpha, beta) = half(case, &board);
        let counts = board.query(alpha, beta, &mut vec![0; case.nodes()]).unwrap();
        println!(
            "- {} × {}, {} pairs: α = {alpha}, β = {beta}, of {} nodes {} are kept",
            case.operators,
            case.rides,
            case.pairs.len(),
            case.nodes(),
            counts.operators + counts.rides
        );
    }
    println!();
}

/// Prints a goal with its ratios, and whether each of them is within so much.
fn print_ratios(ratios: &[f64], most: f64, goal: &str) {
    assert!(!ratios.is_empty());
    let reached = if ratios.iter().all(|ratio| *ratio <= most) { "reached" } else { "NOT reached" };
    let ratios: Vec<String> = ratios.iter().map(|ratio| format!("{ratio:.2}")).collect();
    println!("- {goal}: {}, {reached}", ratios.join(", "));
}

/// Whether each line of a call is within so much of another program.
fn print_goal<'a>(lines: impl IntoIterator<Item = &'a Line>, call: &str, (against, name): (usize, &str), most: f64) {
    let of_call = lines.into_iter().filter(|line| line.call == call);
    let ratios: Vec<f64> = of_call.map(|line| line.ratio(against)).collect();
    print_ratios(&ratios, most, &format!("{call} at most {most} × {name}"));
}

/// The lines of a peel under limits that drop about half, and under those that drop everybody.
const PEELS: [&str; 2] = ["peel", "peel, everybody dropped"];

/// The table of one or two programs beside the last on each board, under limits that drop about half and under those that
/// drop everybody. The ratios of their times to the last one's, each with its place in the table.
fn print_beside<const N: usize>(
    cases: &[Case],
    what: &str,
    names: [&str; N],
    digits: usize,
    times: impl Fn(&Case, &Board, (u16, u16)) -> [Vec<f64>; N],
) -> Vec<(String, f64)> {
    let (last, others) = names.split_last().unwrap();
    let columns = names.map(|name| format!(" {name} µs |")).concat();
    let of_ratios: String = others.iter().map(|name| format!(" {name} / {last} |")).collect();
    println!("| Limits | Board | Pairs |{columns}{of_ratios}");
    println!("|---|---|---:|{}", "---:|".repeat(2 * N - 1));
    let mut ratios = Vec::new();
    for case in cases {
        case.tell(what);
        let (n, m, pairs) = (case.operators, case.rides, case.pairs.len());
        let mut memory = Box::new(Memory::new());
        let board = Board::build(memory.parts(), n, m, &case.pairs, START).unwrap();
        for (name, limits) in [("about half", half(case, &board)), ("everybody", limits(case, &board))] {
            let times = times(case, &board, limits);
            let of_programs: Vec<f64> = times[..N - 1].iter().map(|of_one| ratio(of_one, &times[N - 1])).collect();
            let columns = times.map(|times| format!(" {:.digits$} |", median(times))).concat();
            let of_ratios: String = of_programs.iter().map(|ratio| format!(" {ratio:.2} |")).collect();
            println!("| {name} | {n} × {m} | {pairs} |{columns}{of_ratios}");
            for (program, ratio) in others.iter().zip(of_programs) {
                let program = if N == 2 { String::new() } else { format!(", {program}") };
                ratios.push((format!("{n} × {m}, {pairs} pairs, {name}{program}"), ratio));
            }
        }
    }
    ratios
}

/// The times of a peel, and of the library's own algorithm in Rust, which (b)'s isn't.
fn own_peels(case: &Case, board: &Board, (alpha, beta): (u16, u16)) -> [Vec<f64>; 2] {
    let mut tables = Tables::new(case.operators, case.rides, &case.pairs);
    assert!(tables.build(START));
    let none = vec![0; case.rides as usize];
    let (mut marks, mut same) = (Vec::new(), Vec::new());
    let (mut peeled, mut again) = (None, None);
    let times = measure(
        10,
        &mut [
            &mut || {
                marks = vec![1; case.nodes()];
                peeled = Some(board.peel(&none, &mut marks, alpha, beta, u16::MAX).unwrap());
            },
            &mut || {
                same = vec![1; case.nodes()];
                again = black_box(&tables).own_peel(&mut same, alpha, beta, u16::MAX);
            },
        ],
    );
    assert!(marks == same && again == peeled.map(|peeled| (peeled.settled, peeled.steps)));
    times
}

fn print_own_peels(cases: &[Case]) {
    let most = 1.1;
    println!("A peel beside the library's own algorithm in Rust, in place (a peel of (b) looks at everybody before each step):\n");
    let what = "a peel beside the library's own in Rust";
    let ratios = print_beside(cases, what, ["library", "own"], 1, own_peels);
    println!("\n- library at most {most} × its own algorithm in place: {}\n", goal(&ratios, most));
}

const LISTS: (usize, &str) = (1, "(a)");
const TABLES: (usize, &str) = (2, "(b)");

fn main() {
    let messages = 8 * (ROUNDS + 2);
    let mut lines = Vec::new();
    for pairs in [3000, 6000, 12000] {
        lines.extend(run(&Case::new(200, 60, pairs, messages)));
    }
    lines.extend(run_with_some_away(&Case::new(200, 60, 6000, 0)));
    sort(&mut lines);
    println!("Microseconds for one call, medians of {ROUNDS} rounds in which the programs take turns.\n");
    print_lines(&lines);
    let sizes = [(50, 15, 375), (100, 30, 1500), (200, 60, 3000), (200, 60, 6000), (200, 60, 12000)];
    let cases = sizes.map(|(operators, rides, pairs)| Case::new(operators, rides, pairs, messages));
    print_halves(&cases);
    println!("At 6,000 pairs:\n");
    let at_6000 = || lines.iter().filter(|line| line.pairs == 6000);
    print_goal(at_6000(), "build", LISTS, 0.2);
    print_goal(at_6000(), "message", LISTS, 0.2);
    print_goal(at_6000(), "query", (2, "a Rust loop"), 1.15);
    println!("\nAt 3,000, 6,000 and 12,000 pairs:\n");
    for call in PEELS {
        print_goal(&lines, call, LISTS, 0.5);
        print_goal(&lines, call, TABLES, 1.1);
    }
    for [pairs, tables, ..] in [covers::HALF, covers::EVERYBODY] {
        print_goal(&lines, pairs, LISTS, 0.35);
        print_goal(&lines, tables, LISTS, 0.1);
    }
    println!();
    print_bursts();
    previews::print(&cases);
    crowds::print(&cases);
    lookups::print();
    minimums::print(&cases);
    println!("Growth, with half of all pairs:\n");
    let mut lines = Vec::new();
    for (operators, rides) in [(50, 15), (100, 30), (200, 60)] {
        lines.extend(run(&Case::new(operators, rides, operators as usize * rides as usize / 2, messages)));
    }
    sort(&mut lines);
    print_lines(&lines);
    println!("At 50 × 15, 100 × 30 and 200 × 60:\n");
    PEELS.iter().for_each(|call| print_goal(&lines, call, TABLES, 1.1));
    println!();
    print_own_peels(&cases);
    println!("Memory at 200 × 60:\n");
    eprintln!("measures stack and lent memory");
    memory::print();
}
