//! diagrams [--dump] < script

use oracle::{diagrams, limits};
use std::io::{Read, Write};

fn main() {
    let dump = match std::env::args().skip(1).collect::<Vec<_>>().as_slice() {
        [] => false,
        [a] if a == "--dump" => true,
        _ => fail("usage: diagrams [--dump] < script"),
    };
    let mut text = vec![];
    if let Err(e) = std::io::stdin().read_to_end(&mut text) { fail(&e.to_string()); }
    let Ok(text) = String::from_utf8(text) else { fail("line 1: not text") };
    limits::run(move || {
        let script = diagrams::Script::parse(&text).unwrap_or_else(|e| fail(&e));
        let mut out = std::io::BufWriter::new(std::io::stdout());
        let mut result = script.run(|i, value, stores| {
            writeln!(out, "{}", diagrams::line(i, value, stores)).unwrap_or_else(|e| fail(&e.to_string()));
        });
        let nodes = match &mut result {
            Ok(stores) if dump => stores.dump(),
            _ => String::new(),
        };
        let written = out.write_all(nodes.as_bytes()).and_then(|()| out.flush());
        if let Err(e) = written { fail(&e.to_string()); }
        if let Err(e) = result { fail(&e); }
    });
}

fn fail(message: &str) -> ! {
    eprintln!("{message}");
    std::process::exit(1)
}
