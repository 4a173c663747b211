//! 01's "Strings" by enumeration, against the Rust: membership of every string of at most three hops is worked out from
//! 01's text and compared with epsilon and delta; verdicts, live sets and pruned labels with a walk over single packets.

use book::{Instruction, Reader};

const HOPS: usize = 3;

/// Strings of at most HOPS hops over `p` packets, numbered; packets are numbers with field 0 as the highest bit.
struct Space {
    p: usize,
    list: Vec<Vec<usize>>, // start, hops.., end
    number: std::collections::HashMap<Vec<usize>, usize>,
}

type Language = Vec<bool>;

impl Space {
    fn new(fields: u32) -> Space {
        let p = 1 << fields;
        let mut list: Vec<Vec<usize>> = vec![];
        let mut layer: Vec<Vec<usize>> = (0..p).flat_map(|a| (0..p).map(move |z| vec![a, z])).collect();
        for _ in 0..=HOPS {
            list.extend(layer.iter().cloned());
            layer = layer
                .iter()
                .flat_map(|s| (0..p).map(move |h| { let mut s = s.clone(); s.insert(1, h); s }))
                .collect();
        }
        let number = list.iter().cloned().enumerate().map(|(i, s)| (s, i)).collect();
        Space { p, list, number }
    }

    fn set(&self, holds: impl Fn(&[usize]) -> bool) -> Language { self.list.iter().map(|s| holds(s)).collect() }

    fn pointwise(&self, a: &Language, b: &Language, f: impl Fn(bool, bool) -> bool) -> Language {
        a.iter().zip(b).map(|(&a, &b)| f(a, b)).collect()
    }

    /// Joins of a string of the one and a string of the other that agree in the packet between.
    fn join(&self, l: &Language, r: &Language) -> Language {
        self.set(|s| {
            let hops = s.len() - 2;
            (0..=hops).any(|cut| {
                (0..self.p).any(|m| {
                    let mut left = s[..=cut].to_vec();
                    left.push(m);
                    let mut right = vec![m];
                    right.extend(&s[cut + 1..]);
                    l[self.number[&left]] && r[self.number[&right]]
                })
            })
        })
    }

    fn star(&self, l: &Language) -> Language {
        let mut all = self.set(|s| s.len() == 2 && s[0] == s[1]);
        loop {
            let more = self.pointwise(&all, &self.join(&all, l), |a, b| a || b);
            if more == all { return all; }
            all = more;
        }
    }

    fn next(&self, e: &Language) -> Language {
        self.set(|s| s.len() > 2 && e[self.number[&s[1..].to_vec()]])
    }

    fn until(&self, e1: &Language, e2: &Language) -> Language {
        self.set(|s| {
            let mut tail = s.to_vec();
            loop {
                let n = self.number[&tail];
                if e2[n] { return true; }
                if !e1[n] || tail.len() == 2 { return false; }
                tail.remove(0); // the first hop becomes the start
            }
        })
    }
}

fn bit(packet: usize, fields: u32, f: u32) -> bool { packet >> (fields - 1 - f) & 1 == 1 }

/// The strings of a constructor line, by 01's text alone.
fn language(space: &Space, fields: u32, lines: &[Option<Language>], i: &Instruction) -> Option<Language> {
    use Instruction::*;
    let at = |n: &usize| lines[*n].as_ref().unwrap();
    let relation = |holds: &dyn Fn(usize, usize) -> bool| space.set(|s| s.len() == 2 && holds(s[0], s[1]));
    let with_bit = |a: usize, f: u32, v: bool| {
        let mask = 1 << (fields - 1 - f);
        if v { a | mask } else { a & !mask }
    };
    Some(match i {
        Zero => relation(&|_, _| false),
        One => relation(&|a, z| a == z),
        All => relation(&|_, _| true),
        Test(f, v) => relation(&|a, z| a == z && bit(a, fields, *f) == *v),
        Set(f, v) => relation(&|a, z| z == with_bit(a, *f, *v)),
        Dup => space.set(|s| s.len() == 3 && s[0] == s[1] && s[1] == s[2]),
        Top => space.set(|_| true),
        Or(a, b) => space.pointwise(at(a), at(b), |a, b| a || b),
        And(a, b) => space.pointwise(at(a), at(b), |a, b| a && b),
        Xor(a, b) => space.pointwise(at(a), at(b), |a, b| a != b),
        Minus(a, b) => space.pointwise(at(a), at(b), |a, b| a && !b),
        Union(list) => list.iter().fold(space.set(|_| false), |u, a| space.pointwise(&u, at(a), |a, b| a || b)),
        Inter(list) => list.iter().fold(space.set(|_| true), |u, a| space.pointwise(&u, at(a), |a, b| a && b)),
        Not(a) => at(a).iter().map(|b| !b).collect(),
        Seq(a, b) => space.join(at(a), at(b)),
        Star(a) => space.star(at(a)),
        Next(a) => space.next(at(a)),
        Until(a, b) => space.until(at(a), at(b)),
        Empty(_) | Live(_) | Pruned(_) | Why(_) => return None,
    })
}

struct Random(u64);
impl Random {
    fn below(&mut self, n: usize) -> usize {
        self.0 = self.0.wrapping_mul(6364136223846793005).wrapping_add(1442695040888963407);
        ((self.0 >> 33) % n as u64) as usize
    }
}

fn random_book(r: &mut Random) -> String {
    let fields = [0, 1, 1, 2][r.below(4)];
    let mut text = format!("fields {fields} budget 1000000\n");
    let lines = 4 + r.below(9);
    for i in 0..lines {
        let word = |r: &mut Random, list: &[&str]| list[r.below(list.len())].to_string();
        let kind = if i == 0 { 0 } else { r.below(10) };
        let line = match kind {
            0 if fields == 0 => word(r, &["zero", "one", "dup", "dup", "top"]),
            0..=2 if fields > 0 && r.below(2) == 0 => {
                let w = word(r, &["test", "set"]);
                format!("{w} {} {}", r.below(fields), r.below(2))
            }
            0..=2 => word(r, &["zero", "one", "all", "dup", "dup", "dup", "top"]),
            3..=7 => {
                let w = word(r, &["or", "and", "xor", "minus", "seq", "seq", "seq", "until", "until"]);
                format!("{w} {} {}", r.below(i), r.below(i))
            }
            8 => {
                let w = word(r, &["not", "star", "next"]);
                format!("{w} {}", r.below(i))
            }
            _ => {
                let mut w = word(r, &["union", "inter"]);
                for _ in 0..r.below(4) { w += &format!(" {}", r.below(i)); }
                w
            }
        };
        text += &line;
        text.push('\n');
    }
    text
}

macro_rules! check {
    ($name:ident, $k:ident) => {
        mod $name {
            use super::*;
            use $k::machine::{Machine, Measure, Step, Verdict};
            use $k::sp::{SPstore, SP};
            use $k::spp::{SPPstore, SPP};
            use std::collections::{HashMap, HashSet};

            fn has_packet(store: &SPstore, mut s: SP, fields: u32, a: usize) -> bool {
                for f in 0..fields {
                    let n = store.get(s);
                    s = if bit(a, fields, f) { n.x1 } else { n.x0 };
                }
                s == SP(1)
            }

            fn has_pair(store: &SPPstore, mut r: SPP, fields: u32, a: usize, z: usize) -> bool {
                for f in 0..fields {
                    let n = store.get(r);
                    r = match (bit(a, fields, f), bit(z, fields, f)) {
                        (false, false) => n.x00,
                        (false, true) => n.x01,
                        (true, false) => n.x10,
                        (true, true) => n.x11,
                    };
                }
                r == SPP(1)
            }

            /// epsilon and delta of a state as tables of single packets.
            struct Plain {
                epsilon: Vec<Vec<bool>>,
                delta: Vec<(usize, Vec<Vec<bool>>)>,
            }

            fn plain<'a>(m: &mut Machine, fields: u32, known: &'a mut HashMap<usize, Plain>, s: usize) -> &'a Plain {
                if !known.contains_key(&s) {
                    let p = 1 << fields;
                    let e = m.aut.epsilon(s);
                    let list: Vec<_> = m.aut.delta(s).get_transitions().iter().map(|(&t, &l)| (t, l)).collect();
                    let store = m.aut.spp_store();
                    let table = |r| (0..p).map(|a| (0..p).map(|z| has_pair(store, r, fields, a, z)).collect()).collect();
                    let delta: Vec<(usize, Vec<Vec<bool>>)> = list.into_iter().map(|(t, l)| (t, table(l))).collect();
                    for a in 0..p {
                        for h in 0..p {
                            assert!(delta.iter().filter(|(_, l)| l[a][h]).count() <= 1, "labels meet");
                        }
                    }
                    known.insert(s, Plain { epsilon: table(e), delta });
                }
                &known[&s]
            }

            fn accepts(m: &mut Machine, fields: u32, known: &mut HashMap<usize, Plain>, s: usize, string: &[usize]) -> bool {
                let here = plain(m, fields, known, s);
                if string.len() == 2 { return here.epsilon[string[0]][string[1]]; }
                let next = here.delta.iter().find(|(_, l)| l[string[0]][string[1]]).map(|(t, _)| *t);
                next.is_some_and(|t| accepts(m, fields, known, t, &string[1..]))
            }

            /// Start packets of the state's strings of any length: a walk over (state, packet) until nothing changes.
            fn live(m: &mut Machine, fields: u32, known: &mut HashMap<usize, Plain>, s: usize) -> HashMap<usize, Vec<bool>> {
                let p = 1 << fields;
                let mut states = vec![s];
                let mut met: HashSet<usize> = states.iter().copied().collect();
                let mut head = 0;
                while head < states.len() {
                    for (t, _) in &plain(m, fields, known, states[head]).delta {
                        if met.insert(*t) { states.push(*t); }
                    }
                    head += 1;
                }
                let mut live: HashMap<usize, Vec<bool>> = states
                    .iter()
                    .map(|s| (*s, known[s].epsilon.iter().map(|row| row.contains(&true)).collect()))
                    .collect();
                loop {
                    let mut grew = false;
                    for s in &states {
                        for (t, label) in &known[s].delta {
                            for a in 0..p {
                                if !live[s][a] && (0..p).any(|h| label[a][h] && live[t][h]) {
                                    live.get_mut(s).unwrap()[a] = true;
                                    grew = true;
                                }
                            }
                        }
                    }
                    if !grew { return live; }
                }
            }

            /// Whether the book was checked; one that makes too many states is left out.
            fn check_book(text: &str, spaces: &[Space]) -> bool {
                let mut reader = Reader::new(text.as_bytes()).unwrap();
                let fields = reader.fields;
                let space = &spaces[fields as usize];
                let mut m = Machine::new(fields, reader.budget);
                let mut lines: Vec<Option<Language>> = vec![];
                let mut known = HashMap::new();
                while let Some(i) = reader.next().unwrap() {
                    let l = language(space, fields, &lines, &i).unwrap();
                    let Step::Made(state) = m.step(&i) else { unreachable!() };
                    for (string, &wanted) in space.list.iter().zip(&l) {
                        let got = accepts(&mut m, fields, &mut known, state, string);
                        assert_eq!(got, wanted, "{text}\nstate {state} string {string:?}");
                    }
                    lines.push(Some(l));
                    if m.aut.q_states() > 3000 { return false; }
                }
                for n in 0..lines.len() {
                    let state = m.state_of(n);
                    let sets = live(&mut m, fields, &mut known, state);
                    // Every string of at most three hops starts with a live packet.
                    for (string, &inside) in space.list.iter().zip(lines[n].as_ref().unwrap()) {
                        assert!(!inside || sets[&state][string[0]], "{text}");
                    }
                    let none = !sets[&state].contains(&true);
                    // Before live sets are stored, and by both loops.
                    assert_eq!(m.aut.is_empty(state), none, "{text}\nline {n}");
                    use Instruction::{Empty, Live, Pruned, Why};
                    for wanted in [&Empty(n), &Why(n), &Live(n), &Pruned(n), &Empty(n), &Why(n)] {
                        match m.step(wanted) {
                            Step::Made(_) => unreachable!(),
                            Step::Empty(_, verdict, count) => {
                                assert_eq!(verdict, if none { Verdict::Yes } else { Verdict::No }, "{text}\nline {n}");
                                assert!(count > 0);
                            }
                            Step::Live(_, set) => {
                                let store = m.aut.spp_store();
                                let got: Vec<bool> = (0..space.p).map(|a| has_packet(&store.sp, set, fields, a)).collect();
                                assert_eq!(got, sets[&state], "{text}\nline {n}");
                                let count = got.iter().filter(|b| **b).count() as u64;
                                assert_eq!(Measure::default().packets(&store.sp, set).0, count);
                            }
                            Step::Pruned(_, list) => {
                                let store = m.aut.spp_store();
                                let here = &known[&state];
                                let mut left: HashSet<usize> = HashSet::new();
                                for (t, label) in &here.delta {
                                    let cut = |a: usize, h: usize| label[a][h] && sets[t][h];
                                    let pairs = (0..space.p).map(|a| (0..space.p).filter(|&h| cut(a, h)).count()).sum::<usize>();
                                    if pairs == 0 { continue; }
                                    left.insert(*t);
                                    let got = list.iter().find(|(s, _)| s == t).expect("a pruned transition").1;
                                    assert_eq!(Measure::default().pairs(store, got).0, pairs as u64);
                                    for a in 0..space.p {
                                        for h in 0..space.p {
                                            assert_eq!(has_pair(store, got, fields, a, h), cut(a, h), "{text}\nline {n}");
                                        }
                                    }
                                }
                                assert_eq!(list.iter().map(|(t, _)| *t).collect::<HashSet<_>>(), left, "{text}\nline {n}");
                            }
                            Step::Why(got) => {
                                // The fewest hops, then start, hops and end as numbers.
                                let strings = space.list.iter().zip(lines[n].as_ref().unwrap()).filter(|(_, &inside)| inside);
                                match strings.map(|(string, _)| string).min_by_key(|string| (string.len(), string.to_vec())) {
                                    Some(string) => {
                                        let wanted = string.iter().map(|&p| p as u32).collect();
                                        assert_eq!(got, Some(wanted), "{text}\nline {n}");
                                    }
                                    None => match got {
                                        Some(string) => assert!(string.len() > HOPS + 2 && !none, "{text}\nline {n}"),
                                        None => assert!(none, "{text}\nline {n}"),
                                    },
                                }
                            }
                        }
                    }
                }
                true
            }

            #[test]
            fn random_books() {
                oracle::limits::on_large_stack(|| {
                    let spaces = [Space::new(0), Space::new(1), Space::new(2)];
                    let books: usize = std::env::var("ORACLE_BOOKS").ok().and_then(|s| s.parse().ok()).unwrap_or(2000);
                    let mut checked = 0;
                    for seed in 0..books {
                        let text = random_book(&mut Random(seed as u64 * 7919 + 17));
                        if check_book(&text, &spaces) { checked += 1; }
                    }
                    println!("{checked} of {books} books checked");
                    assert!(checked * 10 > books * 9);
                });
            }
        }
    };
}

check!(unchanged, katch2);
check!(ordered, katch2_ordered);
