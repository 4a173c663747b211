//! diagrambench SCRIPT COUNT: nanoseconds for one run of the script, from new stores.

use oracle::{diagrams, limits};
use std::time::Instant;

fn main() {
    let arguments: Vec<String> = std::env::args().skip(1).collect();
    let (path, count) = match arguments.as_slice() {
        [path, count] => (path.clone(), count.parse::<u32>().unwrap_or(0)),
        _ => (String::new(), 0),
    };
    if count == 0 { fail(2, "usage: diagrambench SCRIPT COUNT"); }
    let text = std::fs::read_to_string(&path).unwrap_or_else(|e| fail(1, &format!("{path}: {e}")));
    limits::run(move || {
        let script = diagrams::Script::parse(&text).unwrap_or_else(|e| fail(1, &e));
        if let Err(e) = script.run(|_, _, _| {}) { fail(1, &e); }
        let start = Instant::now();
        for _ in 0..count { let _ = std::hint::black_box(script.run(|_, _, _| {})); }
        println!("{}", start.elapsed().as_nanos() / u128::from(count));
    });
}

fn fail(status: i32, message: &str) -> ! {
    eprintln!("{message}");
    std::process::exit(status)
}
