//! Runs books: `exact` over the ordered copy, `plain` over the unchanged Rust.

use crate::limits::NESTING;
use book::{Instruction, Reader, Refusal};
use std::fmt::Write;

pub use katch2_ordered::machine::Tables;

/// Why a run ended before the end of its book.
#[derive(Debug, Clone, Copy, PartialEq, Eq)]
pub enum Stop {
    Refused(Refusal),
    /// A state nested above 256 was made in this text line.
    Nesting(usize),
}

impl std::fmt::Display for Stop {
    fn fmt(&self, f: &mut std::fmt::Formatter<'_>) -> std::fmt::Result {
        match self {
            Stop::Refused(r) => write!(f, "refused {} {}", r.number, r.line),
            Stop::Nesting(line) => write!(f, "limit: a state nested above {NESTING}, line {line}"),
        }
    }
}

impl From<Refusal> for Stop {
    fn from(r: Refusal) -> Stop { Stop::Refused(r) }
}

/// 01's output, line for line, to `out`; the tables as they stand at the end.
pub fn exact(text: &[u8], out: &mut dyn FnMut(&str)) -> Result<katch2_ordered::machine::Machine, Stop> {
    use katch2_ordered::machine::{sentence, share, Machine, Measure, Step};
    let mut reader = Reader::new(text)?;
    let mut machine = Machine::new(reader.fields, reader.budget);
    let mut measure = Measure::default();
    out(&format!("fields {}\n", reader.fields));
    while let Some(instruction) = reader.next()? {
        let step = machine.step(&instruction);
        if machine.new_nesting() > NESTING { return Err(Stop::Nesting(reader.line())); }
        let store = machine.aut.spp_store();
        match step {
            Step::Made(_) => {}
            Step::Empty(line, verdict, count) => out(&format!("empty {line} {} {count}\n", verdict.word())),
            Step::Live(line, live) => {
                let (count, _) = measure.packets(&store.sp, live);
                out(&format!("live {line} {count} {}\n", share(count, reader.fields)));
            }
            Step::Pruned(line, list) => {
                let mut text = format!("pruned {line} {}\n", list.len());
                for (target, label) in list {
                    writeln!(text, "pair {target} {}", measure.pairs(store, label).0).unwrap();
                }
                out(&text);
            }
            Step::Why(string) => out(&sentence(&string, reader.fields)),
        }
    }
    Ok(machine)
}

/// The same book by the unchanged Rust, its answers in a form that does not depend on the numbering of states:
/// `empty line verdict`, `live line packets share key`, and for `pruned line count` a line `pair pairs key` for each label,
/// sorted, and `all pairs key` for the union of the labels.
pub fn plain(text: &[u8], out: &mut dyn FnMut(&str)) -> Result<katch2::machine::Machine, Stop> {
    use katch2::machine::{sentence, share, Machine, Measure, Step};
    let mut reader = Reader::new(text)?;
    let mut machine = Machine::new(reader.fields, reader.budget);
    let mut measure = Measure::default();
    out(&format!("fields {}\n", reader.fields));
    while let Some(instruction) = reader.next()? {
        if let Instruction::Empty(line) = instruction {
            let empty = machine.rust_empty(line);
            out(&format!("empty {line} {}\n", if empty { "yes" } else { "no" }));
        } else {
            match machine.step(&instruction) {
                Step::Made(_) | Step::Empty(..) => {}
                Step::Live(line, live) => {
                    let (count, key) = measure.packets(&machine.aut.spp_store().sp, live);
                    out(&format!("live {line} {count} {} {key:032x}\n", share(count, reader.fields)));
                }
                Step::Pruned(line, list) => {
                    let store = machine.aut.spp_store_mut();
                    let mut text = format!("pruned {line} {}\n", list.len());
                    let mut labels: Vec<_> = list.iter().map(|&(_, label)| measure.pairs(store, label)).collect();
                    labels.sort();
                    for (pairs, key) in labels { writeln!(text, "pair {pairs} {key:032x}").unwrap(); }
                    let all = list.iter().fold(store.zero, |all, &(_, label)| store.union(all, label));
                    let (pairs, key) = measure.pairs(store, all);
                    writeln!(text, "all {pairs} {key:032x}").unwrap();
                    out(&text);
                }
                Step::Why(string) => out(&sentence(&string, reader.fields)),
            }
        }
        if machine.new_nesting() > NESTING { return Err(Stop::Nesting(reader.line())); }
    }
    Ok(machine)
}

/// A book's whole outcome by the ordered copy.
#[derive(Debug, Clone, PartialEq, Eq)]
pub struct Outcome {
    pub stop: Option<Stop>,
    pub output: String,
    pub tables: Tables,
}

pub fn outcome(text: &[u8]) -> Outcome {
    let mut output = String::new();
    match exact(text, &mut |s| output.push_str(s)) {
        Ok(mut machine) => Outcome { stop: None, output, tables: machine.tables() },
        Err(stop) => Outcome { stop: Some(stop), output, tables: Tables::default() },
    }
}

fn words(list: &[u32]) -> String {
    let end = list.iter().rposition(|&w| w != 0).map_or(0, |i| i + 1);
    let words: Vec<String> = list[..end].iter().map(|w| w.to_string()).collect();
    format!("[{}]", words.join(", "))
}

impl Outcome {
    /// One line of JSON; the zeros at each table's end are left off. None if the run met a limit.
    pub fn json(&self) -> Option<String> {
        let (number, line) = match self.stop {
            None => (0, 0),
            Some(Stop::Refused(r)) => (r.number, r.line),
            Some(Stop::Nesting(_)) => return None,
        };
        let t = &self.tables;
        Some(format!(
            "{{\"number\": {number}, \"line\": {line}, \"out_len\": {}, \"output\": \"{}\", \"tables\": {{\"sp\": {}, \
             \"spp\": {}, \"states\": {}, \"members\": {}, \"transitions\": {}, \"pending\": [], \"scratch\": []}}}}",
            self.output.len(),
            self.output.replace('\n', "\\n"),
            words(&t.sp),
            words(&t.spp),
            words(&t.states),
            words(&t.members),
            words(&t.transitions),
        ))
    }
}

/// Standard input, whole.
pub fn read_input() -> Vec<u8> {
    let mut text = vec![];
    if let Err(e) = std::io::Read::read_to_end(&mut std::io::stdin(), &mut text) {
        eprintln!("standard input: {e}");
        std::process::exit(1);
    }
    text
}

/// Writes and flushes, so that answers stand even if a limit ends the process.
pub fn print(text: &str) {
    use std::io::Write;
    let mut out = std::io::stdout();
    if out.write_all(text.as_bytes()).and_then(|()| out.flush()).is_err() {
        std::process::exit(1);
    }
}

/// Exit status of a run that ended early: 1 after a refusal, 3 at a limit.
pub fn leave(stop: Stop) -> ! {
    eprintln!("{stop}");
    std::process::exit(match stop {
        Stop::Refused(_) => 1,
        Stop::Nesting(_) => crate::limits::STATUS,
    })
}
