//! The child module that aut.rs declares. This file is the oracle's own: as a child of `aut` it reaches what is private
//! there. It adds no step to the Rust's functions except `q_search`, which is `is_empty`'s loop with a budget and a count,
//! and `q_why`, which is 02 (i) with the Rust's `bwd`, `pull` and `union`.

use super::{AExpr, Aut, State};
use crate::machine::{Finished, Record, Verdict};
use crate::sp::SP;
use crate::spp::SPP;
use std::collections::{HashMap, HashSet};

// Names that aut.rs re-exports; the oracle has no use for them.
pub struct PreparedQuery;
pub struct QueryBuilder;
pub struct QueryError;
pub struct QueryNode;
pub struct QueryOptions;
pub struct QueryPacketSet;
pub struct QueryProgram;
pub struct QueryStats;

impl Aut {
    pub fn q_spp(&mut self, relation: SPP) -> State { self.mk_spp(relation) }
    pub fn q_dup(&mut self) -> State { self.mk_dup() }
    pub fn q_top(&mut self) -> State { self.mk_top() }
    pub fn q_union(&mut self, a: State, b: State) -> State { self.mk_union(a, b) }
    pub fn q_union_n(&mut self, list: Vec<State>) -> State { self.mk_union_n(list) }
    pub fn q_intersect(&mut self, a: State, b: State) -> State { self.mk_intersect(a, b) }
    pub fn q_intersect_n(&mut self, list: Vec<State>) -> State { self.mk_intersect_n(list) }
    pub fn q_xor(&mut self, a: State, b: State) -> State { self.mk_xor(a, b) }
    pub fn q_difference(&mut self, a: State, b: State) -> State { self.mk_difference(a, b) }
    pub fn q_complement(&mut self, a: State) -> State { self.mk_complement(a) }
    pub fn q_sequence(&mut self, a: State, b: State) -> State { self.mk_sequence(a, b) }
    pub fn q_star(&mut self, a: State) -> State { self.mk_star(a) }
    /// The constructor that aut.rs has only inside its translation of expressions (02, (iv)).
    pub fn q_next(&mut self, a: State) -> State { self.intern(AExpr::LtlNext(a)) }
    pub fn q_until(&mut self, a: State, b: State) -> State { self.mk_until(a, b) }

    /// `is_empty`, line for line, with 01's budget and count.
    pub fn q_search(&mut self, state: State, budget: u64, finished: &mut Finished) -> (Verdict, u64) {
        self.query_epoch = self.query_epoch.wrapping_add(1);
        if self.query_epoch == 0 {
            self.seen.fill((0, self.spp.sp.zero));
            self.query_epoch = 1;
        }
        let epoch = self.query_epoch;
        let mut todo = vec![(state, self.spp.sp.one)];
        let mut count = 0;
        loop {
            if todo.is_empty() { return (Verdict::Yes, count); }
            if count == budget { return (Verdict::Spent, count); }
            let (state, incoming) = todo.pop().unwrap();
            count += 1;
            if self.seen.len() <= state { self.seen.resize(state + 1, (0, self.spp.sp.zero)); }
            let previous = if self.seen[state].0 == epoch { self.seen[state].1 } else { self.spp.sp.zero };
            let fresh = self.spp.sp.difference(incoming, previous);
            if self.spp.sp.is_zero(fresh) { continue; }
            self.seen[state] = (epoch, self.spp.sp.union(previous, fresh));
            let epsilon = self.epsilon(state);
            if self.spp.has_image(fresh, epsilon) { return (Verdict::No, count); }
            let list = self.delta(state);
            self.q_finish(state, finished);
            for (target, label) in list.transitions {
                let next = self.spp.push(fresh, label);
                if !self.spp.sp.is_zero(next) { todo.push((target, next)); }
            }
        }
    }

    /// `live_packets`, with a note of the lists that it made `delta` store.
    pub fn q_live(&mut self, state: State, finished: &mut Finished) -> SP {
        let stored = self.live_cache.contains_key(&state);
        let live = self.live_packets(state);
        if !stored { self.q_walk(state, finished); }
        live
    }

    /// The walk of live_packets again, over the lists now stored: the states in the order of their visits.
    fn q_walk(&self, state: State, finished: &mut Finished) -> Vec<State> {
        let mut states = vec![state];
        let mut met: HashSet<State> = states.iter().copied().collect();
        let mut head = 0;
        while head < states.len() {
            let state = states[head];
            head += 1;
            self.q_finish(state, finished);
            for (&target, _) in &self.delta_map[&state].transitions {
                if met.insert(target) { states.push(target); }
            }
        }
        states
    }

    /// 02 (i): the rounds until none changes, and the string that is picked: start, hops, end, as numbers.
    pub fn q_why(&mut self, x: State, fields: u32, finished: &mut Finished) -> Option<Vec<u32>> {
        self.live_cache.remove(&x);
        self.live_packets(x);
        let states = self.q_walk(x, finished);
        let mut epsilons = HashMap::new();
        for &s in &states { epsilons.insert(s, self.epsilon(s)); }
        let mut rounds: Vec<HashMap<State, SP>> = vec![HashMap::new()];
        for &s in &states {
            let ends = self.spp.bwd(epsilons[&s]);
            rounds[0].insert(s, ends);
        }
        loop {
            let before = rounds.last().unwrap().clone();
            let mut now = HashMap::new();
            for &s in &states {
                let mut u = self.spp.bwd(epsilons[&s]);
                for (t, l) in self.q_stored_list(s).unwrap() {
                    let p = self.spp.pull(l, before[&t]);
                    u = self.spp.sp.union(u, p);
                }
                now.insert(s, u);
            }
            if now == before { break; }
            rounds.push(now);
        }
        let zero = self.spp.sp.zero;
        let fewest = rounds.iter().position(|w| w[&x] != zero)?;
        let all = self.spp.top;
        let one = self.spp.sp.one;
        let mut p = self.q_least(fields, 0, rounds[fewest][&x], all, &mut HashMap::new()).unwrap();
        let mut string = vec![p];
        let mut s = x;
        for k in (0..fewest).rev() {
            let mut best: Option<(u32, State)> = None;
            for (t, l) in self.q_stored_list(s).unwrap() {
                if let Some(h) = self.q_least(fields, p, rounds[k][&t], l, &mut HashMap::new()) {
                    if best.map_or(true, |(b, _)| h < b) { best = Some((h, t)); }
                }
            }
            (p, s) = best.expect("a set holds starts of strings only");
            string.push(p);
        }
        string.push(self.q_least(fields, p, one, epsilons[&s], &mut HashMap::new()).unwrap());
        Some(string)
    }

    /// The least packet of a set to which a relation leads the packet p.
    fn q_least(&self, depth: u32, p: u32, set: SP, r: SPP, known: &mut HashMap<(u32, u32), Option<u32>>) -> Option<u32> {
        if depth == 0 { return if set.0 == 1 && r.0 == 1 { Some(0) } else { None }; }
        if let Some(&least) = known.get(&(set.0, r.0)) { return least; }
        let half = 1 << (depth - 1);
        let (n, m) = (self.spp.sp.get(set), self.spp.get(r));
        let (to0, to1) = if p & half == 0 { (m.x00, m.x01) } else { (m.x10, m.x11) };
        let least = self
            .q_least(depth - 1, p & (half - 1), n.x0, to0, known)
            .or_else(|| self.q_least(depth - 1, p & (half - 1), n.x1, to1, known).map(|h| h + half));
        known.insert((set.0, r.0), least);
        least
    }

    /// `delta_pruned`, its list in ascending order of target.
    pub fn q_pruned(&mut self, state: State, finished: &mut Finished) -> Vec<(State, SPP)> {
        self.q_live(state, finished);
        let mut list: Vec<_> = self.delta_pruned(state).transitions.into_iter().collect();
        list.sort();
        list
    }

    /// Notes what a call of `delta` on this state stored: operands' lists first, each list once.
    pub fn q_finish(&self, state: State, finished: &mut Finished) {
        if finished.known.contains(&state) { return; }
        match &self.aexprs[state] {
            AExpr::SPP(_) | AExpr::Dup | AExpr::Top | AExpr::LtlNext(_) => {}
            AExpr::Union(list) | AExpr::Intersect(list) => {
                for &s in list { self.q_finish(s, finished); }
            }
            AExpr::Complement(a) | AExpr::Star(a) => self.q_finish(*a, finished),
            AExpr::Xor(a, b) | AExpr::Difference(a, b) | AExpr::Sequence(a, b) | AExpr::LtlUntil(a, b) => {
                self.q_finish(*a, finished);
                self.q_finish(*b, finished);
            }
        }
        assert!(self.delta_map.contains_key(&state), "state {state} has no stored list");
        finished.known.insert(state);
        finished.order.push(state);
    }

    pub fn q_states(&self) -> usize { self.aexprs.len() }
    pub fn q_stored_lists(&self) -> usize { self.delta_map.len() }
    pub fn q_stored_epsilon(&self, state: State) -> Option<SPP> { self.epsilon_map.get(&state).copied() }
    pub fn q_stored_live(&self, state: State) -> Option<SP> { self.live_cache.get(&state).copied() }

    /// The stored list in ascending order of target.
    pub fn q_stored_list(&self, state: State) -> Option<Vec<(State, SPP)>> {
        let mut list: Vec<_> = self.delta_map.get(&state)?.transitions.iter().map(|(&s, &l)| (s, l)).collect();
        list.sort();
        Some(list)
    }

    pub fn q_record(&self, state: State) -> Record {
        match &self.aexprs[state] {
            AExpr::SPP(r) => Record::Relation(*r),
            AExpr::Union(list) => Record::List(2, list.clone()),
            AExpr::Intersect(list) => Record::List(3, list.clone()),
            AExpr::Xor(a, b) => Record::Two(4, *a, *b),
            AExpr::Difference(a, b) => Record::Two(5, *a, *b),
            AExpr::Complement(a) => Record::One(6, *a),
            AExpr::Sequence(a, b) => Record::Two(7, *a, *b),
            AExpr::Star(a) => Record::One(8, *a),
            AExpr::Dup => Record::None(9),
            AExpr::LtlNext(a) => Record::One(10, *a),
            AExpr::LtlUntil(a, b) => Record::Two(11, *a, *b),
            AExpr::Top => Record::None(12),
        }
    }

    /// Sets the epoch so that the next query meets the wrap to 0.
    pub fn q_exhaust_epochs(&mut self) { self.query_epoch = u64::MAX; }
}
