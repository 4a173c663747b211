//! The programs on bad, empty, random and exploding input.

use std::io::Write;
use std::process::{Command, Output, Stdio};

const BOOKRUN: &str = env!("CARGO_BIN_EXE_bookrun");
const BOOKEXACT: &str = env!("CARGO_BIN_EXE_bookexact");
const DIAGRAMS: &str = env!("CARGO_BIN_EXE_diagrams");

fn run(program: &str, options: &[&str], input: &[u8]) -> Output {
    let mut child = Command::new(program)
        .args(options)
        .env("ORACLE_SECONDS", "20")
        .env("ORACLE_MEMORY_MIB", "512")
        .stdin(Stdio::piped())
        .stdout(Stdio::piped())
        .stderr(Stdio::piped())
        .spawn()
        .unwrap();
    // The program may leave before it has read all.
    let _ = child.stdin.take().unwrap().write_all(input);
    child.wait_with_output().unwrap()
}

fn status(o: &Output) -> i32 { o.status.code().expect("an exit status, not a signal") }

fn refused(input: &[u8], number: u32, line: usize, before: &str) {
    for program in [BOOKRUN, BOOKEXACT] {
        let o = run(program, &[], input);
        assert_eq!(status(&o), 1);
        assert_eq!(String::from_utf8_lossy(&o.stderr), format!("refused {number} {line}\n"));
        let last = if program == BOOKEXACT { format!("refused {number} {line}\n") } else { String::new() };
        assert_eq!(String::from_utf8_lossy(&o.stdout), format!("{before}{last}"));
    }
}

#[test]
fn bad_books() {
    refused(b"", 1, 1, "");
    refused(b"\n", 1, 1, "");
    refused(b"fields 1 budget 1", 1, 1, "");
    refused(b"fields 32 budget x\n", 1, 1, "");
    refused(b"fields 18446744073709551616 budget 0\n", 1, 1, "");
    refused(b"fields 18446744073709551615 budget 0\n", 2, 1, "");
    refused(b"fields 32 budget 0\n", 2, 1, "");
    refused(b"fields 01 budget 0\n", 1, 1, "");
    refused(b"fields 1 budget 0 \n", 1, 1, "");
    refused(b"fields 1 budget 0\ndup", 3, 2, "fields 1\n");
    refused(b"fields 1 budget 0\n\n", 3, 2, "fields 1\n");
    refused(b"fields 1 budget 0\ndup\r\n", 3, 2, "fields 1\n");
    refused(b"fields 1 budget 0\nunion \n", 3, 2, "fields 1\n");
    refused(b"fields 1 budget 0\nkeep 0\n", 3, 2, "fields 1\n");
    refused(b"fields 1 budget 0\nnext 0\n", 4, 2, "fields 1\n");
    refused(b"fields 1 budget 0\nnot 0\n", 4, 2, "fields 1\n");
    refused(b"fields 1 budget 0\ndup\nempty 0 0\n", 3, 3, "fields 1\n");
    refused(b"fields 1 budget 0\ndup\nnot 4294967296\n", 4, 3, "fields 1\n");
    refused(b"fields 1 budget 0\ntest 1 0\n", 5, 2, "fields 1\n");
    refused(b"fields 1 budget 0\ntest 0 4294967297\n", 5, 2, "fields 1\n");
    refused(b"fields 1 budget 0\ntest 18446744073709551616 0\n", 3, 2, "fields 1\n");
    refused(b"fields 1 budget 0\ntest 18446744073709551615 0\n", 5, 2, "fields 1\n");
    refused(b"fields 0 budget 0\ntest 0 0\n", 5, 2, "fields 0\n");
}

#[test]
fn answers_before_a_bad_line_stand() {
    let book = b"fields 0 budget 9\ndup\nempty 0\nlive 1\n";
    let o = run(BOOKEXACT, &[], book);
    assert_eq!((status(&o), o.stdout.as_slice()), (1, &b"fields 0\nempty 0 no 2\nrefused 4 4\n"[..]));
    let o = run(BOOKRUN, &[], book);
    assert_eq!((status(&o), o.stdout.as_slice()), (1, &b"fields 0\nempty 0 no\n"[..]));
}

#[test]
fn instruction_2049() {
    let mut book = b"fields 0 budget 0\n".to_vec();
    for _ in 0..2048 { book.extend(b"dup\n"); }
    for program in [BOOKRUN, BOOKEXACT] { assert_eq!(status(&run(program, &[], &book)), 0); }
    book.push(b'x');
    refused(&book, 3, 2050, "fields 0\n");
}

#[test]
fn random_bytes() {
    let mut x: u64 = 88172645463325252;
    let mut next = || {
        x ^= x << 13;
        x ^= x >> 7;
        x ^= x << 17;
        (x >> 24) as u8
    };
    let bytes: Vec<u8> = (0..1 << 20).map(|_| next()).collect();
    refused(&bytes, 1, 1, "");
    let mut book = b"fields 3 budget 5\n".to_vec();
    book.extend(&bytes);
    refused(&book, 3, 2, "fields 3\n");
    let digits: Vec<u8> = bytes.iter().map(|b| b"0123456789 "[*b as usize % 11]).collect();
    let mut book = b"fields 3 budget 5\ndup\nunion ".to_vec();
    book.extend(&digits);
    refused(&book, 3, 3, "fields 3\n");
    assert_eq!(status(&run(DIAGRAMS, &[], &bytes)), 1);
    assert_eq!(status(&run(DIAGRAMS, &[], b"")), 1);
    assert_eq!(status(&run(DIAGRAMS, &[], b"fields 2\nspp.zero\nsp.union 0 0\n")), 1);
    assert_eq!(status(&run(DIAGRAMS, &[], b"fields 2\nsp.zero\nsp.zero 1\nsp.union 0 1\n")), 1);
    assert_eq!(status(&run(DIAGRAMS, &[], b"fields 2\nsp.zero\nsp.mk 0 0\n")), 1);
    // A list of half a million members.
    let mut book = b"fields 0 budget 5\ndup\nunion".to_vec();
    for _ in 0..500_000 { book.extend(b" 0"); }
    book.push(b'\n');
    for program in [BOOKRUN, BOOKEXACT] { assert_eq!(status(&run(program, &[], &book)), 0); }
}

/// Runs that would not end, or not fit, are cut with status 3 and leave the answers before.
fn cut(book: &str, before: &str) {
    for program in [BOOKRUN, BOOKEXACT] {
        let o = run(program, &[], book.as_bytes());
        let error = String::from_utf8_lossy(&o.stderr).into_owned();
        assert_eq!(status(&o), 3, "{error}");
        assert!(error.starts_with("limit: "), "{error}");
        assert!(String::from_utf8_lossy(&o.stdout).starts_with(before));
    }
}

#[test]
fn products_explode() {
    // 40 unions of two members each: 2^40 products.
    let mut book = "fields 0 budget 9\ndup\n".to_string();
    let mut line = 0;
    let mut unions = vec![];
    let mut last = 0;
    for _ in 0..40 {
        book += &format!("not {last}\nstar {}\nor {} {}\n", line + 1, line + 1, line + 2);
        last = line + 2;
        unions.push((line + 3).to_string());
        line += 3;
    }
    book += "empty 0\n";
    book += &format!("inter {}\n", unions.join(" "));
    cut(&book, "fields 0\nempty 0 ");
}

#[test]
fn sequences_double() {
    let mut book = "fields 0 budget 9\ndup\nempty 0\nseq 0 0\n".to_string();
    for i in 2..60 { book += &format!("seq {i} {i}\n"); }
    cut(&book, "fields 0\nempty 0 no");
}

#[test]
fn deepest_nesting_runs() {
    let mut book = "fields 0 budget 100\ndup\none\nminus 0 1\n".to_string();
    for i in 2..257 { book += &format!("minus {i} 1\n"); }
    for program in [BOOKRUN, BOOKEXACT] {
        let o = run(program, &[], format!("{book}empty 257\nlive 257\npruned 257\n").as_bytes());
        assert_eq!(status(&o), 0, "{}", String::from_utf8_lossy(&o.stderr));
    }
    cut(&format!("{book}minus 257 1\nempty 258\n"), "fields 0\n");
    // A query that makes a state nested 257.
    let mut book = "fields 0 budget 100\ndup\n".to_string();
    for i in 0..256 { book += &format!("{} {i}\n", if i % 2 == 0 { "star" } else { "not" }); }
    cut(&format!("{book}live 256\n"), "fields 0\n");
}
