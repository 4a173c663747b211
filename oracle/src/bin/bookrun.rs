//! bookrun < book: the unchanged Rust's answers.

use oracle::{books, limits};

fn main() {
    if std::env::args().len() > 1 {
        eprintln!("usage: bookrun < book");
        std::process::exit(2);
    }
    let text = books::read_input();
    limits::run(move || {
        if let Err(stop) = books::plain(&text, &mut books::print) { books::leave(stop); }
    });
}
