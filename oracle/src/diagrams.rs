//! Scripts of operations on packet sets and relations.

use katch2::sp::{SPstore, SP};
use katch2::spp::{SPPstore, SPP};
use std::fmt::Write;

#[derive(Debug, Clone, Copy, PartialEq, Eq)]
pub enum Value {
    Set(SP),
    Relation(SPP),
    Truth(bool),
}

/// The stores of a script: with the header `sp N` the packet sets alone.
#[allow(clippy::large_enum_variant)]
pub enum Stores {
    Sets(SPstore),
    Both(SPPstore),
}

impl Stores {
    pub fn sets(&mut self) -> &mut SPstore {
        match self {
            Stores::Sets(sp) => sp,
            Stores::Both(spp) => &mut spp.sp,
        }
    }

    fn relations(&mut self) -> Result<&mut SPPstore, String> {
        match self {
            Stores::Sets(_) => Err("no relations under the header `sp`".into()),
            Stores::Both(spp) => Ok(spp),
        }
    }

    fn fields(&mut self) -> u32 { self.sets().num_vars() }

    /// Numbers of nodes: packet nodes, and relation nodes if there are relations.
    pub fn nodes(&mut self) -> (usize, Option<usize>) {
        match self {
            Stores::Sets(sp) => (sp.q_nodes(), None),
            Stores::Both(spp) => (spp.sp.q_nodes(), Some(spp.q_nodes())),
        }
    }

    pub fn dump(&mut self) -> String {
        let mut text = String::new();
        let sp = self.sets();
        for i in 0..sp.q_nodes() {
            let w = sp.q_words(i);
            writeln!(text, "sp {} {} {}", 2 * (i + 1), w[0], w[1]).unwrap();
        }
        if let Stores::Both(spp) = self {
            for i in 0..spp.q_nodes() {
                let w = spp.q_words(i);
                writeln!(text, "spp {} {} {} {} {}", i + 2, w[0], w[1], w[2], w[3]).unwrap();
            }
        }
        text
    }
}

pub struct Script {
    sets_only: bool,
    fields: u32,
    lines: Vec<(String, Vec<u64>)>,
}

impl Script {
    pub fn parse(text: &str) -> Result<Script, String> {
        let mut rows = text.lines();
        let bad = || "line 1: expected `fields N` or `sp N`, N at most 31".to_string();
        let header: Vec<&str> = rows.next().ok_or_else(bad)?.split(' ').collect();
        let [word, n] = header[..] else { return Err(bad()) };
        let sets_only = match word {
            "fields" => false,
            "sp" => true,
            _ => return Err(bad()),
        };
        let fields: u32 = n.parse().map_err(|_| bad())?;
        if fields > 31 { return Err(bad()); }
        let mut lines = vec![];
        for (i, row) in rows.enumerate() {
            let mut words = row.split(' ');
            let name = words.next().unwrap_or("").to_string();
            let numbers: Result<Vec<u64>, _> = words.map(|w| w.parse::<u64>()).collect();
            let numbers = numbers.map_err(|_| format!("line {}: not a number", i + 2))?;
            lines.push((name, numbers));
        }
        Ok(Script { sets_only, fields, lines })
    }

    pub fn len(&self) -> usize { self.lines.len() }
    pub fn is_empty(&self) -> bool { self.lines.is_empty() }

    pub fn stores(&self) -> Stores {
        if self.sets_only { Stores::Sets(SPstore::new(self.fields)) } else { Stores::Both(SPPstore::new(self.fields)) }
    }

    /// Runs the script; `each` sees every line's number, value and the stores after it.
    pub fn run(&self, mut each: impl FnMut(usize, Value, &mut Stores)) -> Result<Stores, String> {
        let mut stores = self.stores();
        let mut values: Vec<Value> = vec![];
        for (i, (name, numbers)) in self.lines.iter().enumerate() {
            let value = step(&mut stores, &values, name, numbers).map_err(|e| format!("line {}: {e}", i + 2))?;
            values.push(value);
            each(i, value, &mut stores);
        }
        Ok(stores)
    }
}

fn set(values: &[Value], n: u64) -> Result<SP, String> {
    match usize::try_from(n).ok().and_then(|n| values.get(n)) {
        Some(Value::Set(a)) => Ok(*a),
        _ => Err(format!("{n} is not an earlier packet set")),
    }
}

fn relation(values: &[Value], n: u64) -> Result<SPP, String> {
    match usize::try_from(n).ok().and_then(|n| values.get(n)) {
        Some(Value::Relation(a)) => Ok(*a),
        _ => Err(format!("{n} is not an earlier relation")),
    }
}

fn same_depth(a: u32, b: u32) -> Result<(), String> {
    if a == b { Ok(()) } else { Err(format!("depths {a} and {b} differ")) }
}

fn step(stores: &mut Stores, values: &[Value], name: &str, numbers: &[u64]) -> Result<Value, String> {
    let fields = stores.fields();
    let arity = |wanted: usize| {
        if numbers.len() == wanted { Ok(()) } else { Err(format!("{name} takes {wanted} numbers")) }
    };
    // Constants stand at depth N, or at the depth given.
    let depth = || match numbers {
        [] => Ok(fields),
        [d] if *d <= u64::from(fields) => Ok(*d as u32),
        _ => Err(format!("{name} takes a depth of at most {fields}, or none")),
    };
    let bit = || match numbers {
        [f, v] if *f < u64::from(fields) && *v < 2 => Ok((*f as u32, *v == 1)),
        _ => Err(format!("{name} takes a field below {fields} and a bit")),
    };
    let inner = |d: u32| if d == 0 { Err("no children at depth 0".to_string()) } else { Ok(()) };
    let room = |d: u32| if d >= fields { Err(format!("deeper than {fields}")) } else { Ok(()) };

    if let Some(op) = name.strip_prefix("sp.") {
        let sp = stores.sets();
        let result = match op {
            "zero" => sp.q_zero(depth()?),
            "one" => sp.q_one(depth()?),
            "test" => { let (f, v) = bit()?; sp.test(f, v) }
            "complement" => { arity(1)?; let a = set(values, numbers[0])?; sp.complement(a) }
            "x0" | "x1" => {
                arity(1)?;
                let a = set(values, numbers[0])?;
                inner(sp.q_depth(a))?;
                let n = sp.get(a);
                if op == "x0" { n.x0 } else { n.x1 }
            }
            "mk" | "union" | "intersect" | "xor" | "difference" => {
                arity(2)?;
                let (a, b) = (set(values, numbers[0])?, set(values, numbers[1])?);
                same_depth(sp.q_depth(a), sp.q_depth(b))?;
                match op {
                    "mk" => { room(sp.q_depth(a))?; sp.mk(a, b) }
                    "union" => sp.union(a, b),
                    "intersect" => sp.intersect(a, b),
                    "xor" => sp.xor(a, b),
                    _ => sp.difference(a, b),
                }
            }
            _ => return Err(format!("unknown operation {name}")),
        };
        return Ok(Value::Set(result));
    }
    let spp = stores.relations()?;
    if let Some(op) = name.strip_prefix("spp.") {
        let result = match op {
            "zero" => spp.q_zero(depth()?),
            "one" => spp.q_one(depth()?),
            "top" => spp.q_top(depth()?),
            "test" => { let (f, v) = bit()?; spp.q_test(f, v) }
            "assign" => { let (f, v) = bit()?; spp.q_set(f, v) }
            "complement" => { arity(1)?; let a = relation(values, numbers[0])?; spp.complement(a) }
            "star" => { arity(1)?; let a = relation(values, numbers[0])?; spp.star(a) }
            "x00" | "x01" | "x10" | "x11" => {
                arity(1)?;
                let a = relation(values, numbers[0])?;
                inner(spp.q_depth(a))?;
                let n = spp.get(a);
                match op { "x00" => n.x00, "x01" => n.x01, "x10" => n.x10, _ => n.x11 }
            }
            "mk" => {
                arity(4)?;
                let mut c = [SPP(0); 4];
                for (slot, &n) in c.iter_mut().zip(numbers) { *slot = relation(values, n)?; }
                for x in &c[1..] { same_depth(spp.q_depth(c[0]), spp.q_depth(*x))?; }
                room(spp.q_depth(c[0]))?;
                spp.mk(c[0], c[1], c[2], c[3])
            }
            "union" | "intersect" | "xor" | "difference" | "sequence" => {
                arity(2)?;
                let (a, b) = (relation(values, numbers[0])?, relation(values, numbers[1])?);
                same_depth(spp.q_depth(a), spp.q_depth(b))?;
                match op {
                    "union" => spp.union(a, b),
                    "intersect" => spp.intersect(a, b),
                    "xor" => spp.xor(a, b),
                    "difference" => spp.difference(a, b),
                    _ => spp.sequence(a, b),
                }
            }
            _ => return Err(format!("unknown operation {name}")),
        };
        return Ok(Value::Relation(result));
    }
    match name {
        "rust.test" => { let (f, v) = bit()?; Ok(Value::Relation(spp.test(f, v))) }
        "rust.assign" => { let (f, v) = bit()?; Ok(Value::Relation(spp.assign(f, v))) }
        "fwd" => { arity(1)?; let r = relation(values, numbers[0])?; Ok(Value::Set(spp.fwd(r))) }
        "bwd" => { arity(1)?; let r = relation(values, numbers[0])?; Ok(Value::Set(spp.bwd(r))) }
        "ifwd" => { arity(1)?; let s = set(values, numbers[0])?; Ok(Value::Relation(spp.ifwd(s))) }
        "diagonal" => { arity(1)?; let s = set(values, numbers[0])?; Ok(Value::Relation(spp.diagonal(s))) }
        "push" | "has_image" => {
            arity(2)?;
            let (s, r) = (set(values, numbers[0])?, relation(values, numbers[1])?);
            same_depth(spp.sp.q_depth(s), spp.q_depth(r))?;
            Ok(if name == "push" { Value::Set(spp.push(s, r)) } else { Value::Truth(spp.has_image(s, r)) })
        }
        "pull" => {
            arity(2)?;
            let (r, s) = (relation(values, numbers[0])?, set(values, numbers[1])?);
            same_depth(spp.sp.q_depth(s), spp.q_depth(r))?;
            Ok(Value::Set(spp.pull(r, s)))
        }
        _ => Err(format!("unknown operation {name}")),
    }
}

/// One line of `diagrams`' output.
pub fn line(i: usize, value: Value, stores: &mut Stores) -> String {
    let value = match value {
        Value::Set(a) => a.0.to_string(),
        Value::Relation(a) => a.0.to_string(),
        Value::Truth(t) => t.to_string(),
    };
    match stores.nodes() {
        (sp, None) => format!("{i} {value} {sp}"),
        (sp, Some(spp)) => format!("{i} {value} {sp} {spp}"),
    }
}
