//! (b) The library's own algorithm in Rust: dense tables of bytes, sweeps that subtract whole rows, a limit that rises to
//! one more than the least degree of a ride. Its peel looks at everybody before each step; the library's own is beside it.

use board::{Message, Parts, Words, GRANT, OPERATOR_OFF, OPERATOR_ON, PRESENT, RIDE_IN, RIDE_OUT, WITHDRAWAL};

/// A board with the parts that the library keeps.
pub struct Tables {
    pub operators: u16,
    pub rides: u16,
    pub pairs: u16,
    pub operator_numbers: Vec<u16>,
    pub ride_numbers: Vec<u16>,
    pub stamps: Vec<u32>,
    pub revisions: Vec<u16>,
    pub index: Vec<u16>,
    pub presence_stamps: Vec<u32>,
    pub presence_revisions: Vec<u16>,
    pub presence: Vec<u16>,
}

/// 1 where a pair is out of range, or not after the one before it.
fn misplaced(n: u16, m: u16, (u0, v0): (u16, u16), (u, v): (u16, u16)) -> u16 {
    ((n <= u) | (m <= v) | (u < u0) | ((u == u0) & (v <= v0))) as u16
}

fn ascending(n: u16, m: u16, pairs: u16, operators: &[u16], rides: &[u16]) -> bool {
    let (operators, rides) = (&operators[..pairs as usize], &rides[..pairs as usize]);
    let behind = operators.windows(2).zip(rides.windows(2));
    let first = pairs == 0 || (operators[0] < n && rides[0] < m);
    first && behind.map(|(u, v)| misplaced(n, m, (u[0], v[0]), (u[1], v[1]))).sum::<u16>() == 0
}

/// The degrees of the operators and of the rides.
struct Degrees {
    operators: [u8; 200],
    rides: [u8; 60],
}

/// Reads the pairs once: tables of zeros are filled with those whose nodes are both here, and the degrees in these counted.
fn tabulate(
    n: usize,
    operators: &[u16],
    rides: &[u16],
    here: &[u8],
    by_operator: &mut [u8],
    by_ride: &mut [u8],
) -> Degrees {
    let mut degrees = Degrees { operators: [0; 200], rides: [0; 60] };
    let (mut last, mut degree) = (0, 0);
    for (&operator, &ride) in operators.iter().zip(rides) {
        let (u, v) = (operator as usize, ride as usize);
        let one = here[u] & here[n + v];
        by_operator[u * 60 + v] = one;
        by_ride[v * 200 + u] = one;
        degrees.rides[v] += one;
        if u != last {
            degree = degrees.operators[u];
        }
        degree += one;
        degrees.operators[u] = degree;
        last = u;
    }
    degrees
}

fn subtract(degrees: &mut [u8], row: &[u8]) {
    for (degree, one) in degrees.iter_mut().zip(row) {
        *degree = degree.wrapping_sub(*one);
    }
}

/// Removes the nodes of a side that fall short of the limit; how many.
#[allow(clippy::too_many_arguments)]
fn sweep(
    kept: &mut [u8],
    degrees: &[u8],
    limit: u8,
    levels: &mut [u16],
    level: u16,
    others: &mut [u8],
    table: &[u8],
    width: usize,
) -> usize {
    let mut removed = 0;
    for i in 0..kept.len() {
        if kept[i] & (degrees[i] < limit) as u8 != 0 {
            kept[i] = 0;
            levels[i] = level;
            let at = i * width;
            let end = at + others.len();
            subtract(others, &table[at..end]);
            removed += 1;
        }
    }
    removed
}

/// Who is kept, and the degrees inside those.
#[derive(Clone)]
struct Kept {
    operators: [u8; 200],
    rides: [u8; 60],
    operator_degrees: [u8; 200],
    ride_degrees: [u8; 60],
}

fn fill_row(by_operator: &[u8], by_ride: &[u8], mut kept: Kept, n: usize, m: usize, alpha: u8, row: &mut [u16]) {
    let (operators, rides) = (&mut kept.operators[..n], &mut kept.rides[..m]);
    let (operator_degrees, ride_degrees) = (&mut kept.operator_degrees[..n], &mut kept.ride_degrees[..m]);
    let (operator_levels, ride_levels) = row.split_at_mut(n);
    let mut beta: u8 = 1;
    loop {
        let level = (beta - 1) as u16;
        loop {
            sweep(rides, ride_degrees, beta, ride_levels, level, operator_degrees, by_ride, 200);
            if sweep(operators, operator_degrees, alpha, operator_levels, level, ride_degrees, by_operator, 60) == 0 {
                break;
            }
        }
        let degrees = rides.iter().zip(ride_degrees.iter());
        match degrees.filter(|ride| *ride.0 == 1).map(|ride| *ride.1).min() {
            Some(least) => beta = least + 1,
            None => return,
        }
    }
}

/// Fills the index with the levels of the pairs that count; the number of words that differ before and after.
fn fill_index(n: usize, m: usize, operators: &[u16], rides: &[u16], presence: &[u16], index: &mut [u16]) -> u16 {
    let (mut by_operator, mut by_ride, mut here) = ([0; 12000], [0; 12000], [0; 260]);
    here.iter_mut().zip(&presence[..n + m]).for_each(|(bit, &word)| *bit = (word == PRESENT) as u8);
    let degrees = tabulate(n, operators, rides, &here, &mut by_operator, &mut by_ride);
    let all =
        Kept { operators: [1; 200], rides: [1; 60], operator_degrees: degrees.operators, ride_degrees: degrees.rides };
    let high = all.operator_degrees[..n].iter().copied().max().unwrap_or(0);
    let mut row = [0; 260];
    let row = &mut row[..n + m];
    let mut differ = 0;
    for alpha in 1..=m {
        if alpha <= high as usize {
            fill_row(&by_operator, &by_ride, all.clone(), n, m, alpha as u8, row);
        } else {
            row.fill(0);
        }
        for (word, level) in index[(alpha - 1) * (n + m)..alpha * (n + m)].iter_mut().zip(&*row) {
            differ += (word != level) as u16;
            *word = *level;
        }
    }
    differ
}

/// The lowest node that falls short: operators come before rides.
fn lowest_short(marks: &[u16], degrees: &[u8], limits: &[u16]) -> Option<usize> {
    let nodes = marks.iter().zip(degrees).zip(limits);
    nodes.into_iter().position(|((&mark, &degree), &limit)| mark == 1 && (degree as u16) < limit)
}

/// The lowest node from a place on whose degree is below its limit, both in bytes.
fn lowest_byte(degrees: &[u8; 260], limits: &[u8; 260], from: usize, nodes: usize) -> usize {
    (from..nodes).find(|&x| degrees[x] < limits[x]).unwrap_or(nodes)
}

/// The state of the library's peel, changed in place.
struct State {
    degrees: [u8; 260],
    operators: usize,
    nodes: usize,
    steps: u16,
    next: usize,
}

impl State {
    fn step(&mut self, by_operator: &[u8], by_ride: &[u8], limits: &mut [u8; 260], marks: &mut [u16]) {
        let (n, x, nodes) = (self.operators, self.next, self.nodes);
        if x < n {
            let at = x * 60;
            subtract(&mut self.degrees[n..nodes], &by_operator[at..at + nodes - n]);
        } else {
            let at = (x - n) * 200;
            subtract(&mut self.degrees[..n], &by_ride[at..at + n]);
        }
        limits[x] = 0;
        marks[x] = 0;
        let short = |u: usize| (self.degrees[u] < limits[u]) as u8;
        let from = if n <= x && (0..n).map(short).sum::<u8>() != 0 { 0 } else { x };
        self.next = lowest_byte(&self.degrees, limits, from, nodes);
        self.steps += 1;
    }
}

impl Tables {
    /// Room for a board; its pairs are in the pair arrays.
    pub fn new(operators: u16, rides: u16, pairs: &[(u16, u16)]) -> Tables {
        let (n, m) = (operators as usize, rides as usize);
        let mut tables = Tables {
            operators,
            rides,
            pairs: pairs.len() as u16,
            operator_numbers: vec![0; n * m],
            ride_numbers: vec![0; n * m],
            stamps: vec![0; n * m],
            revisions: vec![0; n * m],
            index: vec![0; m * (n + m)],
            presence_stamps: vec![0; n + m],
            presence_revisions: vec![0; n + m],
            presence: vec![0; n + m],
        };
        for (place, pair) in pairs.iter().enumerate() {
            (tables.operator_numbers[place], tables.ride_numbers[place]) = *pair;
        }
        tables
    }

    pub fn parts(&mut self) -> Parts<'_> {
        Parts {
            operators: &mut self.operator_numbers,
            rides: &mut self.ride_numbers,
            stamps: &mut self.stamps,
            revisions: &mut self.revisions,
            index: &mut self.index,
            presence_stamps: &mut self.presence_stamps,
            presence_revisions: &mut self.presence_revisions,
            presence: &mut self.presence,
        }
    }

    pub fn words(&self) -> Words<'_> {
        Words {
            operators: &self.operator_numbers,
            rides: &self.ride_numbers,
            stamps: &self.stamps,
            revisions: &self.revisions,
            index: &self.index,
            presence_stamps: &self.presence_stamps,
            presence_revisions: &self.presence_revisions,
            presence: &self.presence,
        }
    }

    fn accepted(&self) -> bool {
        let (n, m) = (self.operators as usize, self.rides as usize);
        n <= 200
            && m <= 60
            && n * m <= self.operator_numbers.len()
            && n * m <= self.ride_numbers.len()
            && n * m <= self.stamps.len()
            && n * m <= self.revisions.len()
            && m * (n + m) <= self.index.len()
            && n + m <= self.presence_stamps.len()
            && n + m <= self.presence_revisions.len()
            && n + m <= self.presence.len()
            && self.pairs as usize <= n * m
            && ascending(self.operators, self.rides, self.pairs, &self.operator_numbers, &self.ride_numbers)
    }

    fn place(&self, operator: u16, ride: u16) -> usize {
        operator as usize * self.rides as usize + ride as usize
    }

    fn clear_tails(&mut self) {
        let (pairs, places) = (self.pairs as usize, self.operators as usize * self.rides as usize);
        self.operator_numbers[pairs..places].fill(0);
        self.ride_numbers[pairs..places].fill(0);
    }

    fn fill_index(&mut self) -> u16 {
        let (n, m, pairs) = (self.operators as usize, self.rides as usize, self.pairs as usize);
        let (operators, rides) = (&self.operator_numbers[..pairs], &self.ride_numbers[..pairs]);
        fill_index(n, m, operators, rides, &self.presence, &mut self.index)
    }

    pub fn build(&mut self, start: u32) -> bool {
        if !self.accepted() || start == 0 {
            return false;
        }
        self.clear_tails();
        let places = self.operators as usize * self.rides as usize;
        self.stamps[..places].fill(0);
        self.revisions[..places].fill(0);
        let nodes = self.operators as usize + self.rides as usize;
        self.presence_stamps[..nodes].fill(0);
        self.presence_revisions[..nodes].fill(0);
        self.presence[..nodes].fill(PRESENT);
        for i in 0..self.pairs as usize {
            let place = self.place(self.operator_numbers[i], self.ride_numbers[i]);
            self.stamps[place] = start;
        }
        self.fill_index();
        true
    }

    /// Whether a listed pair has stamp 0.
    fn stamp_missing(&self) -> bool {
        let pairs = self.pairs as usize;
        let listed = self.operator_numbers[..pairs].iter().zip(&self.ride_numbers[..pairs]);
        listed.into_iter().any(|(&u, &v)| self.stamps[self.place(u, v)] == 0)
    }

    fn valid(&self, one: Message) -> bool {
        let (operator, ride) = (one.operator < self.operators, one.ride < self.rides);
        let fields = match one.kind {
            GRANT | WITHDRAWAL => operator && ride,
            OPERATOR_ON | OPERATOR_OFF => operator && one.ride == 0,
            RIDE_IN | RIDE_OUT => ride && one.operator == 0,
            _ => false,
        };
        fields && one.stamp != 0 && one.revision <= 255
    }

    /// Enters a valid message for a pair; whether it is later than the pair's last.
    fn enter_pair(&mut self, one: Message) -> bool {
        let (pairs, operator, ride, grant) = (self.pairs as usize, one.operator, one.ride, one.kind == GRANT);
        let before = |i: usize| (self.operator_numbers[i], self.ride_numbers[i]) < (operator, ride);
        let (mut low, mut high) = (0, pairs);
        while low < high {
            let middle = low + (high - low) / 2;
            if before(middle) {
                low = middle + 1;
            } else {
                high = middle;
            }
        }
        let is_listed = low < pairs && (self.operator_numbers[low], self.ride_numbers[low]) == (operator, ride);
        let place = self.place(operator, ride);
        if (one.stamp, one.revision, !grant) <= (self.stamps[place], self.revisions[place], !is_listed) {
            return false;
        }
        (self.stamps[place], self.revisions[place]) = (one.stamp, one.revision);
        if grant && !is_listed {
            self.operator_numbers.copy_within(low..pairs, low + 1);
            self.ride_numbers.copy_within(low..pairs, low + 1);
            (self.operator_numbers[low], self.ride_numbers[low]) = (operator, ride);
            self.pairs += 1;
        }
        if !grant && is_listed {
            self.operator_numbers.copy_within(low + 1..pairs, low);
            self.ride_numbers.copy_within(low + 1..pairs, low);
            self.pairs -= 1;
        }
        true
    }

    /// Enters a valid message for an operator or ride; whether it is later than the last of that one.
    fn enter_presence(&mut self, one: Message) -> bool {
        let present = one.kind == OPERATOR_ON || one.kind == RIDE_IN;
        let of_operator = one.kind == OPERATOR_ON || one.kind == OPERATOR_OFF;
        let place = if of_operator { one.operator as usize } else { self.operators as usize + one.ride as usize };
        let last = (self.presence_stamps[place], self.presence_revisions[place], self.presence[place] != PRESENT);
        if (one.stamp, one.revision, !present) <= last {
            return false;
        }
        (self.presence_stamps[place], self.presence_revisions[place]) = (one.stamp, one.revision);
        self.presence[place] = present as u16;
        true
    }

    /// The number of index words that differ, or none where the message is refused.
    pub fn message(&mut self, one: Message) -> Option<u16> {
        if !self.accepted() || self.stamp_missing() || !self.valid(one) {
            return None;
        }
        let of_pair = one.kind == GRANT || one.kind == WITHDRAWAL;
        let taken = if of_pair { self.enter_pair(one) } else { self.enter_presence(one) };
        taken.then(|| {
            self.clear_tails();
            self.fill_index()
        })
    }

    /// A peel of at most so many steps, in place, with a look at everybody before each; whether it settled, and the steps
    /// taken.
    pub fn peel(&self, marks: &mut [u16], alpha: u16, beta: u16, allowed: u16) -> Option<(bool, u16)> {
        if !self.accepted() || marks.iter().any(|&mark| 1 < mark) {
            return None;
        }
        let (n, m, pairs) = (self.operators as usize, self.rides as usize, self.pairs as usize);
        let (mut by_operator, mut by_ride) = ([0; 12000], [0; 12000]);
        let (operators, rides) = (&self.operator_numbers[..pairs], &self.ride_numbers[..pairs]);
        let (mut here, mut degrees, mut limits) = ([0; 260], [0; 260], [0; 260]);
        let words = self.presence[..n + m].iter().zip(&*marks);
        here.iter_mut().zip(words).for_each(|(bit, (&word, &mark))| *bit = (word == PRESENT) as u8 & (mark == 1) as u8);
        let start = tabulate(n, operators, rides, &here, &mut by_operator, &mut by_ride);
        degrees[..n].copy_from_slice(&start.operators[..n]);
        degrees[n..n + m].copy_from_slice(&start.rides[..m]);
        let (degrees, limits) = (&mut degrees[..n + m], &mut limits[..n + m]);
        limits[..n].fill(alpha);
        limits[n..].fill(beta);
        for (limit, &word) in limits.iter_mut().zip(&self.presence) {
            if word != PRESENT {
                *limit = (n + m + 1) as u16;
            }
        }
        let mut steps = 0;
        loop {
            let Some(x) = lowest_short(marks, degrees, limits) else {
                return Some((true, steps));
            };
            if steps == allowed {
                return Some((false, steps));
            }
            marks[x] = 0;
            steps += 1;
            if x < n {
                subtract(&mut degrees[n..n + m], &by_operator[x * 60..x * 60 + m]);
            } else {
                subtract(&mut degrees[..n], &by_ride[(x - n) * 200..(x - n) * 200 + n]);
            }
        }
    }

    /// A peel as the library makes it, in place: the state knows the node dropped next, and looks on from there.
    pub fn own_peel(&self, marks: &mut [u16], alpha: u16, beta: u16, allowed: u16) -> Option<(bool, u16)> {
        if !self.accepted() || marks.iter().any(|&mark| 1 < mark) {
            return None;
        }
        let (n, m, pairs) = (self.operators as usize, self.rides as usize, self.pairs as usize);
        let (mut by_operator, mut by_ride) = ([0; 12000], [0; 12000]);
        let (operators, rides) = (&self.operator_numbers[..pairs], &self.ride_numbers[..pairs]);
        let (mut here, mut degrees, mut limits) = ([0; 260], [0; 260], [0; 260]);
        let words = self.presence[..n + m].iter().zip(&*marks);
        here.iter_mut().zip(words).for_each(|(bit, (&word, &mark))| *bit = (word == PRESENT) as u8 & (mark == 1) as u8);
        let start = tabulate(n, operators, rides, &here, &mut by_operator, &mut by_ride);
        degrees[..n].copy_from_slice(&start.operators[..n]);
        degrees[n..n + m].copy_from_slice(&start.rides[..m]);
        for (x, byte) in limits[..n + m].iter_mut().enumerate() {
            let limit = if x < n { alpha } else { beta };
            let limit = if self.presence[x] == PRESENT { limit } else { (n + m + 1) as u16 };
            *byte = if marks[x] == 1 { limit.min(255) as u8 } else { 0 };
        }
        let next = lowest_byte(&degrees, &limits, 0, n + m);
        let mut state = State { degrees, operators: n, nodes: n + m, steps: 0, next };
        while state.steps < allowed && state.next < n + m {
            state.step(&by_operator, &by_ride, &mut limits, marks);
        }
        Some((n + m <= state.next, state.steps))
    }
}

/// Marks those present whose level is `least` or above, and counts them: a plain loop. With && in place of & the compiler
/// makes no vectors of it, and it takes eight times as long.
fn mark(levels: &[u16], presence: &[u16], least: u16, marks: &mut [u16]) -> u16 {
    let mut count = 0;
    for ((mark, level), word) in marks.iter_mut().zip(levels).zip(presence) {
        *mark = ((*word == PRESENT) & (least <= *level)) as u16;
        count += *mark;
    }
    count
}

/// Marks those present where all without a level are in, else nobody, and counts them.
fn mark_zeros(presence: &[u16], all: bool, marks: &mut [u16]) -> u16 {
    let mut count = 0;
    for (mark, word) in marks.iter_mut().zip(presence) {
        *mark = ((*word == PRESENT) & all) as u16;
        count += *mark;
    }
    count
}

/// A plain loop over the row of a query and the presence words, for operators and then for rides: marks, and the counts.
/// Of those present an operator is marked if alpha is 0 or its level at least the larger of beta and 1, a ride if beta is
/// 0 or its level at least beta, by the levels of row alpha, of row 1 for alpha 0; where the index has no such row they are
/// 0. It is called, as the library is, and not inlined.
#[inline(never)]
pub fn query(words: &Words, n: usize, m: usize, alpha: u16, beta: u16, marks: &mut [u16]) -> (u16, u16) {
    let (operators, rides) = marks[..n + m].split_at_mut(n);
    let (operators_on, rides_in) = words.presence[..n + m].split_at(n);
    let row = alpha.max(1) as usize;
    if m < row {
        return (mark_zeros(operators_on, alpha == 0, operators), mark_zeros(rides_in, beta == 0, rides));
    }
    let least = if alpha == 0 { 0 } else { beta.max(1) };
    let (operator_levels, ride_levels) = words.index[(row - 1) * (n + m)..row * (n + m)].split_at(n);
    (mark(operator_levels, operators_on, least, operators), mark(ride_levels, rides_in, beta, rides))
}
