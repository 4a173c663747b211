//! The root of both crates: the three files and what the oracle puts beside them. sp.rs and spp.rs are included in place, so
//! that a few lines of ours in the same module can read their private node tables; aut.rs comes from build.rs.

pub mod expr;

#[allow(dead_code)]
pub mod sp {
    include!("../../docs/src/src/sp.rs");

    impl SPstore {
        pub fn q_nodes(&self) -> usize { self.nodes.len() }
        /// The stored words of node i: its left child is even.
        pub fn q_words(&self, i: usize) -> [u32; 2] { [self.nodes[i].x0.0, self.nodes[i].x1.0] }
        pub fn q_depth(&self, a: SP) -> u32 { self.depth(a) }
        pub fn q_zero(&mut self, depth: u32) -> SP { self.zero_at_depth(depth) }
        pub fn q_one(&mut self, depth: u32) -> SP { self.one_at_depth(depth) }
        pub fn q_is_universal(&self, a: SP) -> bool { self.is_universal(a) }
    }
}

#[allow(dead_code)]
pub mod spp {
    include!("../../docs/src/src/spp.rs");

    impl SPPstore {
        pub fn q_fields(&self) -> u32 { self.num_vars }
        pub fn q_nodes(&self) -> usize { self.nodes.len() }
        pub fn q_words(&self, i: usize) -> [u32; 4] {
            let n = self.nodes[i];
            [n.x00.0, n.x01.0, n.x10.0, n.x11.0]
        }
        pub fn q_depth(&self, a: SPP) -> u32 { self.depth(a) }
        pub fn q_zero(&mut self, depth: u32) -> SPP { self.zero_at_depth(depth) }
        pub fn q_one(&mut self, depth: u32) -> SPP { self.one_at_depth(depth) }
        pub fn q_top(&mut self, depth: u32) -> SPP { self.top_at_depth(depth) }

        /// 01's `test f v`: from the last field up, identity below f, the entry at f, x00 and x11 equal above it.
        pub fn q_test(&mut self, f: u32, v: bool) -> SPP {
            let n = self.num_vars;
            let one = self.one_at_depth(n - f - 1);
            let zero = self.zero_at_depth(n - f - 1);
            let entry = if v { self.mk(zero, zero, zero, one) } else { self.mk(one, zero, zero, zero) };
            self.q_above(f, entry)
        }

        /// 01's `set f v`.
        pub fn q_set(&mut self, f: u32, v: bool) -> SPP {
            let n = self.num_vars;
            let one = self.one_at_depth(n - f - 1);
            let zero = self.zero_at_depth(n - f - 1);
            let entry = if v { self.mk(zero, one, zero, one) } else { self.mk(one, zero, one, zero) };
            self.q_above(f, entry)
        }

        fn q_above(&mut self, f: u32, mut r: SPP) -> SPP {
            for i in (0..f).rev() {
                let zero = self.zero_at_depth(self.num_vars - i - 1);
                r = self.mk(r, zero, zero, r);
            }
            r
        }
    }
}

#[allow(dead_code)]
mod modules {
    include!(concat!(env!("OUT_DIR"), "/modules.rs"));
}
pub use modules::aut;

pub mod machine;

/// aut.rs as it was compiled into this crate.
pub const AUT_SOURCE: &str = include_str!(concat!(env!("OUT_DIR"), "/aut.rs"));
