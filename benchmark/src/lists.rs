//! (a) Document 003's Algorithm 1, plainly, with adjacency lists. A message changes the lists, or who is present, and
//! computes every core number anew.

use board::{Message, GRANT, OPERATOR_OFF, OPERATOR_ON, PRESENT, RIDE_IN, WITHDRAWAL};

/// A board over adjacency lists: u of U are the operators, v of V the rides. The lists have every clearance.
pub struct Lists {
    rides_of: Vec<Vec<u16>>,
    operators_of: Vec<Vec<u16>>,
    stamps: Vec<u32>,
    revisions: Vec<u16>,
    presence_stamps: Vec<u32>,
    presence_revisions: Vec<u16>,
    present: Vec<bool>,
    pub index: Vec<u16>,
}

/// G' of one row: who was removed, and the degrees of those who were not.
#[derive(Clone)]
struct Remaining {
    removed_operators: Vec<bool>,
    removed_rides: Vec<bool>,
    operator_degrees: Vec<u16>,
    ride_degrees: Vec<u16>,
}

impl Lists {
    pub fn build(operators: u16, rides: u16, pairs: &[(u16, u16)], start: u32) -> Lists {
        let mut lists = Lists {
            rides_of: vec![Vec::new(); operators as usize],
            operators_of: vec![Vec::new(); rides as usize],
            stamps: vec![0; operators as usize * rides as usize],
            revisions: vec![0; operators as usize * rides as usize],
            presence_stamps: vec![0; operators as usize + rides as usize],
            presence_revisions: vec![0; operators as usize + rides as usize],
            present: vec![true; operators as usize + rides as usize],
            index: vec![0; rides as usize * (operators as usize + rides as usize)],
        };
        for &(operator, ride) in pairs {
            lists.rides_of[operator as usize].push(ride);
            lists.operators_of[ride as usize].push(operator);
            lists.stamps[operator as usize * rides as usize + ride as usize] = start;
        }
        lists.compute_core();
        lists
    }

    /// A valid message; the number of index words that differ, or none where it is not later than the last of its pair,
    /// operator or ride.
    pub fn message(&mut self, one: Message) -> Option<u16> {
        let of_pair = one.kind == GRANT || one.kind == WITHDRAWAL;
        let taken = if of_pair { self.enter_pair(one) } else { self.enter_presence(one) };
        taken.then(|| self.compute_core())
    }

    fn enter_pair(&mut self, one: Message) -> bool {
        let place = one.operator as usize * self.operators_of.len() + one.ride as usize;
        let rides = &mut self.rides_of[one.operator as usize];
        let operators = &mut self.operators_of[one.ride as usize];
        let (here, there) = (rides.binary_search(&one.ride), operators.binary_search(&one.operator));
        let grant = one.kind == GRANT;
        if (one.stamp, one.revision, !grant) <= (self.stamps[place], self.revisions[place], here.is_err()) {
            return false;
        }
        (self.stamps[place], self.revisions[place]) = (one.stamp, one.revision);
        match (grant, here, there) {
            (true, Err(here), Err(there)) => {
                rides.insert(here, one.ride);
                operators.insert(there, one.operator);
            }
            (false, Ok(here), Ok(there)) => {
                rides.remove(here);
                operators.remove(there);
            }
            _ => {}
        }
        true
    }

    fn enter_presence(&mut self, one: Message) -> bool {
        let of_operator = one.kind == OPERATOR_ON || one.kind == OPERATOR_OFF;
        let place = if of_operator { one.operator as usize } else { self.rides_of.len() + one.ride as usize };
        let present = one.kind == OPERATOR_ON || one.kind == RIDE_IN;
        let last = (self.presence_stamps[place], self.presence_revisions[place], !self.present[place]);
        if (one.stamp, one.revision, !present) <= last {
            return false;
        }
        (self.presence_stamps[place], self.presence_revisions[place]) = (one.stamp, one.revision);
        self.present[place] = present;
        true
    }

    /// G: whoever is off or out is removed, and the degrees are those of the pairs that count.
    fn whole(&self) -> Remaining {
        let (operators, rides) = self.present.split_at(self.rides_of.len());
        let degrees = |lists: &[Vec<u16>], present: &[bool], others: &[bool]| {
            let count = |list: &[u16]| list.iter().filter(|&&other| others[other as usize]).count() as u16;
            lists.iter().zip(present).map(|(list, &present)| if present { count(list) } else { 0 }).collect()
        };
        Remaining {
            removed_operators: operators.iter().map(|on| !on).collect(),
            removed_rides: rides.iter().map(|is_in| !is_in).collect(),
            operator_degrees: degrees(&self.rides_of, operators, rides),
            ride_degrees: degrees(&self.operators_of, rides, operators),
        }
    }

    /// Algorithm 1; the number of index words that differ before and after.
    fn compute_core(&mut self) -> u16 {
        let (n, m) = (self.rides_of.len(), self.operators_of.len());
        let whole = self.whole();
        let most = whole.operator_degrees.iter().copied().max().unwrap_or(0) as usize;
        let mut differ = 0;
        let mut core = vec![0; n + m];
        for alpha in 1..=m {
            core.fill(0);
            if alpha <= most {
                self.compute_row(alpha as u16, whole.clone(), &mut core);
            }
            for (word, level) in self.index[(alpha - 1) * (n + m)..alpha * (n + m)].iter_mut().zip(&core) {
                differ += (word != level) as u16;
                *word = *level;
            }
        }
        differ
    }

    /// Lines 2 to 13, for one alpha.
    fn compute_row(&self, alpha: u16, mut graph: Remaining, core: &mut [u16]) {
        let (n, m) = (self.rides_of.len(), self.operators_of.len());
        for operator in 0..n {
            if !graph.removed_operators[operator] && graph.operator_degrees[operator] < alpha {
                self.remove_operator(&mut graph, operator);
            }
        }
        let mut short_rides = Vec::new();
        let mut short_operators = Vec::new();
        let remaining = |graph: &Remaining| (0..m).filter(|&ride| !graph.removed_rides[ride]).collect::<Vec<usize>>();
        let mut rides = remaining(&graph);
        while let Some(least) = rides.iter().map(|&ride| graph.ride_degrees[ride]).min() {
            short_rides.extend(rides.iter().copied().filter(|&ride| graph.ride_degrees[ride] == least));
            while let Some(ride) = short_rides.pop() {
                if graph.removed_rides[ride] {
                    continue;
                }
                core[n + ride] = least;
                graph.removed_rides[ride] = true;
                for &operator in &self.operators_of[ride] {
                    let operator = operator as usize;
                    if graph.removed_operators[operator] {
                        continue;
                    }
                    graph.operator_degrees[operator] -= 1;
                    if graph.operator_degrees[operator] + 1 == alpha {
                        short_operators.push(operator);
                    }
                }
                while let Some(operator) = short_operators.pop() {
                    core[operator] = least;
                    self.remove_operator(&mut graph, operator);
                    let fallen = |ride: &usize| !graph.removed_rides[*ride] && graph.ride_degrees[*ride] <= least;
                    short_rides.extend(self.rides_of[operator].iter().map(|&ride| ride as usize).filter(fallen));
                }
            }
            rides = remaining(&graph);
        }
    }

    fn remove_operator(&self, graph: &mut Remaining, operator: usize) {
        graph.removed_operators[operator] = true;
        for &ride in &self.rides_of[operator] {
            if !graph.removed_rides[ride as usize] {
                graph.ride_degrees[ride as usize] -= 1;
            }
        }
    }
}

/// A peel from all ones to the end under these limits, over adjacency lists made of the pairs that count by these presence
/// words, n operators first; marks and steps. The order of its removals is that of a worklist, since settled marks and their
/// steps are the same in any order.
pub fn peel(n: usize, presence: &[u16], pairs: &[(u16, u16)], limits: &[u16]) -> (Vec<u16>, u16) {
    let nodes = presence.len();
    let present = |node: usize| presence[node] == PRESENT;
    let mut neighbours = vec![Vec::new(); nodes];
    for &(operator, ride) in pairs {
        let (operator, ride) = (operator as usize, n + ride as usize);
        if present(operator) && present(ride) {
            neighbours[operator].push(ride);
            neighbours[ride].push(operator);
        }
    }
    let limit = |node: usize| limits[node] as usize;
    let mut degrees: Vec<usize> = neighbours.iter().map(Vec::len).collect();
    let mut marks = vec![1; nodes];
    let mut short: Vec<usize> = (0..nodes).filter(|&node| !present(node) || degrees[node] < limit(node)).collect();
    short.iter().for_each(|&node| marks[node] = 0);
    let mut steps = 0;
    while let Some(node) = short.pop() {
        steps += 1;
        for &next in &neighbours[node] {
            degrees[next] -= 1;
            if marks[next] == 1 && degrees[next] < limit(next) {
                marks[next] = 0;
                short.push(next);
            }
        }
    }
    (marks, steps)
}
