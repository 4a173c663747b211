//! 01's example, and every row of its "Corners, file by file", by the unchanged Rust and by the ordered copy.

macro_rules! corners {
    ($name:ident, $k:ident) => {
        mod $name {
            use $k::aut::Aut;
            use $k::machine::{Finished, Record, Verdict};
            use $k::sp::{SPstore, SP};
            use $k::spp::{SPPstore, SPP};

            fn zero(aut: &mut Aut) -> usize {
                let r = aut.spp_store().zero;
                aut.q_spp(r)
            }

            #[test]
            fn sp_three_fields() {
                let sp = SPstore::new(3);
                assert_eq!((sp.zero, sp.one, sp.q_nodes()), (SP(6), SP(7), 3));
            }

            #[test]
            fn sp_no_fields() {
                let sp = SPstore::new(0);
                assert_eq!((sp.zero, sp.one, sp.q_nodes()), (SP(0), SP(1), 0));
            }

            #[test]
            fn sp_left_child_is_even() {
                let mut sp = SPstore::new(3);
                let all = sp.all();
                assert_eq!(all.len(), 256);
                for &a in &all {
                    for &b in &all {
                        let u = sp.union(a, b);
                        assert!(all.contains(&u));
                    }
                }
                for i in 0..sp.q_nodes() { assert_eq!(sp.q_words(i)[0] % 2, 0); }
            }

            #[test]
            fn spp_three_fields() {
                let spp = SPPstore::new(3);
                assert_eq!((spp.zero, spp.one, spp.top, spp.q_nodes()), (SPP(4), SPP(7), SPP(10), 9));
            }

            #[test]
            fn spp_no_fields() {
                let spp = SPPstore::new(0);
                assert_eq!((spp.zero, spp.one, spp.top, spp.q_nodes()), (SPP(0), SPP(1), SPP(1), 0));
            }

            #[test]
            fn constants_have_fixed_handles() {
                for n in 0..=31 {
                    let mut spp = SPPstore::new(n);
                    assert_eq!((spp.sp.q_nodes(), spp.q_nodes()), (n as usize, 3 * n as usize));
                    for d in 1..=n {
                        assert_eq!((spp.sp.q_zero(d), spp.sp.q_one(d)), (SP(2 * d), SP(2 * d + 1)));
                        assert_eq!(spp.q_zero(d), SPP(d + 1));
                        assert_eq!(spp.q_one(d), SPP(n + d + 1));
                        assert_eq!(spp.q_top(d), SPP(2 * n + d + 1));
                    }
                    assert_eq!((spp.sp.q_nodes(), spp.q_nodes()), (n as usize, 3 * n as usize));
                }
            }

            #[test]
            fn star_of_zero_is_identity() {
                for n in 0..5 {
                    let mut spp = SPPstore::new(n);
                    let (zero, one) = (spp.zero, spp.one);
                    assert_eq!(spp.star(zero), one);
                }
            }

            #[test]
            fn test_and_set_are_the_stores_own() {
                for n in 1..6 {
                    for f in 0..n {
                        for v in [false, true] {
                            let (mut a, mut b) = (SPPstore::new(n), SPPstore::new(n));
                            assert_eq!(a.q_test(f, v), b.test(f, v));
                            assert_eq!(a.q_set(f, v), b.assign(f, v));
                            assert_eq!((a.q_nodes(), a.sp.q_nodes()), (b.q_nodes(), b.sp.q_nodes()));
                            for i in 0..a.q_nodes() { assert_eq!(a.q_words(i), b.q_words(i)); }
                        }
                    }
                }
            }

            #[test]
            fn intersect_of_top_and_dup() {
                let mut aut = Aut::new(1);
                let (top, dup) = (aut.q_top(), aut.q_dup());
                let s = aut.q_intersect(top, dup);
                assert_eq!(aut.q_record(s), Record::List(3, vec![dup]));
                assert_eq!(aut.q_intersect(dup, top), s);
            }

            #[test]
            fn intersect_of_dup_and_dup() {
                let mut aut = Aut::new(1);
                let dup = aut.q_dup();
                assert_eq!(aut.q_intersect(dup, dup), dup);
                let s = aut.q_intersect_n(vec![dup, dup]);
                assert_eq!(aut.q_record(s), Record::List(3, vec![dup]));
            }

            #[test]
            fn empty_lists() {
                let mut aut = Aut::new(1);
                let s = aut.q_intersect_n(vec![]);
                assert_eq!(aut.q_record(s), Record::None(12));
                let u = aut.q_union_n(vec![]);
                let z = aut.spp_store().zero;
                assert_eq!(aut.q_record(u), Record::Relation(z));
            }

            #[test]
            fn complements() {
                let mut aut = Aut::new(1);
                let z = zero(&mut aut);
                let s = aut.q_complement(z);
                assert_eq!(aut.q_record(s), Record::One(6, z));
                let top = aut.q_top();
                assert_eq!(aut.q_complement(top), z);
                assert_eq!(aut.q_complement(s), z);
            }

            #[test]
            fn difference_of_zero_and_dup() {
                let mut aut = Aut::new(1);
                let (z, dup) = (zero(&mut aut), aut.q_dup());
                let s = aut.q_difference(z, dup);
                assert_eq!(aut.q_record(s), Record::Two(5, z, dup));
            }

            #[test]
            fn relation_top_is_not_top() {
                let mut aut = Aut::new(1);
                let all = aut.spp_store().top;
                let (all, dup) = (aut.q_spp(all), aut.q_dup());
                let s = aut.q_intersect(all, dup);
                assert_eq!(aut.q_search(s, u64::MAX, &mut Finished::default()), (Verdict::Yes, 1));
                assert!(aut.is_empty(s));
                let top = aut.q_top();
                assert_ne!(all, top);
                let u = aut.q_union(all, dup);
                assert_ne!(u, top);
            }

            #[test]
            fn delta_of_dup() {
                let mut aut = Aut::new(1);
                let dup = aut.q_dup();
                let one = aut.spp_store().one;
                let st = aut.delta(dup);
                let one_state = aut.q_spp(one);
                assert_eq!(st.get_transitions().iter().collect::<Vec<_>>(), [(&one_state, &one)]);
                // The identity state is made first, then the zero state.
                assert_eq!((dup, one_state, aut.q_states()), (0, 1, 3));
                assert_eq!(zero(&mut aut), 2);
            }

            #[test]
            fn delta_of_complement_of_zero() {
                let mut aut = Aut::new(1);
                let z = zero(&mut aut);
                let s = aut.q_complement(z);
                let st = aut.delta(s);
                let (top, all) = (aut.q_top(), aut.spp_store().top);
                assert_eq!(st.get_transitions().iter().collect::<Vec<_>>(), [(&top, &all)]);
            }

            #[test]
            fn singleton() {
                let mut aut = Aut::new(1);
                let dup = aut.q_dup();
                let (zero_label, one) = (aut.spp_store().zero, aut.spp_store().one);
                assert!(aut.st_singleton(zero_label, dup).get_transitions().is_empty());
                assert_eq!(aut.q_states(), 1); // a zero label interns nothing
                assert_eq!(aut.st_singleton(one, dup).get_transitions().len(), 1);
                assert_eq!(aut.q_states(), 2);
                let z = zero(&mut aut);
                assert_eq!((z, aut.q_states()), (1, 2)); // a nonzero label interned the zero state
                assert!(aut.st_singleton(one, z).get_transitions().is_empty());
                assert!(aut.st_singleton(zero_label, z).get_transitions().is_empty());
            }

            #[test]
            fn epoch_wraps() {
                let mut aut = Aut::new(1);
                let dup = aut.q_dup();
                let s = aut.q_star(dup);
                let not = aut.q_complement(s);
                let before = (aut.is_empty(s), aut.is_empty(not));
                aut.q_exhaust_epochs();
                assert_eq!((aut.is_empty(s), aut.is_empty(not)), before);
                let mut finished = Finished::default();
                aut.q_exhaust_epochs();
                let a = aut.q_search(not, u64::MAX, &mut finished);
                assert_eq!(aut.q_search(not, u64::MAX, &mut finished), a);
            }
        }
    };
}

corners!(unchanged, katch2);
corners!(ordered, katch2_ordered);

const EXAMPLE: &str = "fields 1 budget 10\ntest 0 1\ndup\nseq 0 1\nempty 2\nlive 2\npruned 2\n";

#[test]
fn example() {
    let o = oracle::books::outcome(EXAMPLE.as_bytes());
    assert_eq!(o.stop, None);
    assert_eq!(o.output, "fields 1\nempty 2 no 2\nlive 2 1 500\npruned 2 1\npair 3 1\n");
    assert_eq!(o.tables.states.len(), 5 * 12);
}

#[test]
fn example_with_other_budgets() {
    for (budget, answer) in [(2, "no 2"), (1, "spent 1"), (0, "spent 0")] {
        let book = EXAMPLE.replace("budget 10", &format!("budget {budget}"));
        let o = oracle::books::outcome(book.as_bytes());
        assert!(o.output.starts_with(&format!("fields 1\nempty 2 {answer}\n")), "{}", o.output);
    }
}

#[test]
fn shares() {
    use katch2_ordered::machine::share;
    assert_eq!(share(1, 4), 62);
    assert_eq!(share(3, 4), 188);
    assert_eq!(share(3, 5), 94);
    assert_eq!(share(5, 4), 312);
    assert_eq!(share(7, 4), 438);
    assert_eq!(share(1, 5), 31);
    assert_eq!(share(0, 31), 0);
    assert_eq!(share(1 << 31, 31), 1000);
    assert_eq!(share(1, 0), 1000);
}
