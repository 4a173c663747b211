//! bookvary COUNT < book: runs the book COUNT times by the unchanged Rust in one process, and prints the lines that every
//! run wrote alike as they are, and of an answer that differed each form with the number of runs that gave it.

use oracle::{books, limits};
use std::collections::BTreeMap;

fn main() {
    let count = std::env::args().nth(1).and_then(|s| s.parse::<u32>().ok()).unwrap_or(0);
    if count == 0 {
        eprintln!("usage: bookvary COUNT < book");
        std::process::exit(2);
    }
    let text = books::read_input();
    limits::run(move || {
        // For each answer, the forms it took; every run gives the same number of answers.
        let mut answers: Vec<BTreeMap<String, u32>> = vec![];
        let mut states: BTreeMap<usize, u32> = BTreeMap::new();
        for _ in 0..count {
            let mut at = 0;
            let run = books::plain(&text, &mut |answer| {
                if answers.len() == at { answers.push(BTreeMap::new()); }
                *answers[at].entry(answer.to_string()).or_default() += 1;
                at += 1;
            });
            match run {
                Ok(machine) => *states.entry(machine.aut.q_states()).or_default() += 1,
                Err(stop) => books::leave(stop),
            }
        }
        for forms in &answers {
            if forms.len() == 1 {
                for form in forms.keys() { books::print(form); }
                continue;
            }
            for (form, runs) in forms { books::print(&format!("-- {runs} of {count} runs:\n{form}")); }
            books::print("--\n");
        }
        let varying = answers.iter().filter(|forms| forms.len() > 1).count();
        books::print(&format!("{varying} of {} answers vary; states at the end (runs): {states:?}\n", answers.len()));
    });
}
