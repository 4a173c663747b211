//! bookbench BOOK COUNT: nanoseconds for one run of the book, from new tables, by the unchanged Rust and by the ordered copy.

use oracle::{books, limits};
use std::time::Instant;

fn main() {
    let arguments: Vec<String> = std::env::args().skip(1).collect();
    let (path, count) = match arguments.as_slice() {
        [path, count] => (path.clone(), count.parse::<u32>().unwrap_or(0)),
        _ => (String::new(), 0),
    };
    if count == 0 {
        eprintln!("usage: bookbench BOOK COUNT");
        std::process::exit(2);
    }
    let text = std::fs::read(&path).unwrap_or_else(|e| {
        eprintln!("{path}: {e}");
        std::process::exit(1);
    });
    limits::run(move || {
        if let Err(stop) = books::exact(&text, &mut |_| {}) { books::leave(stop); }
        let start = Instant::now();
        for _ in 0..count { let _ = std::hint::black_box(books::plain(&text, &mut |_| {})); }
        println!("unchanged {}", start.elapsed().as_nanos() / u128::from(count));
        let start = Instant::now();
        for _ in 0..count { let _ = std::hint::black_box(books::exact(&text, &mut |_| {})); }
        println!("ordered {}", start.elapsed().as_nanos() / u128::from(count));
    });
}
