//! bookexact [--tables] < book: 01's output by the ordered copy; with --tables the whole outcome as one line of JSON.

use oracle::books::{self, Stop};
use oracle::limits;

fn main() {
    let tables = match std::env::args().skip(1).collect::<Vec<_>>().as_slice() {
        [] => false,
        [a] if a == "--tables" => true,
        _ => {
            eprintln!("usage: bookexact [--tables] < book");
            std::process::exit(2);
        }
    };
    let text = books::read_input();
    limits::run(move || {
        let stop = if tables {
            let outcome = books::outcome(&text);
            if let Some(json) = outcome.json() { books::print(&(json + "\n")); }
            outcome.stop
        } else {
            let stop = books::exact(&text, &mut books::print).err();
            // 01's last line of a refused book; a limit of the oracle is no refusal.
            if let Some(stop @ Stop::Refused(_)) = stop { books::print(&format!("{stop}\n")); }
            stop
        };
        if let Some(stop) = stop { books::leave(stop); }
    });
}
