use netcheck_native::{resume, resume_save, run, save, Lent, Outcome, Saved};

const BOOK: &str = "fields 1 budget 10\ntest 0 1\ndup\nseq 0 1\nempty 2\nlive 2\npruned 2\n";
const ANSWER: &str = "fields 1\nempty 2 no 2\nlive 2 1 500\npruned 2 1\npair 3 1\n";

/// Calls with tables of the program's lengths that hold garbage, and gives what the call gave, the output's bytes and the tables.
fn lend<T>(output: usize, call: impl FnOnce(Lent) -> T) -> (T, Vec<u8>, Vec<Vec<u32>>) {
    let mut t: Vec<Vec<u32>> = [1024, 2048, 3072, 512, 1024, 512, 6144].iter().map(|n| vec![7; *n]).collect();
    let mut out = vec![7u8; output];
    let [sp, spp, states, members, transitions, pending, scratch] = &mut t[..] else { unreachable!() };
    let r = call(Lent { sp, spp, states, members, transitions, pending, scratch, output: &mut out });
    (r, out, t)
}

/// The output's text; bytes past its length are untouched.
fn told(mut out: Vec<u8>, length: usize) -> String {
    assert!(out[length..].iter().all(|b| *b == 7));
    out.truncate(length);
    String::from_utf8(out).unwrap()
}

fn run_in(book: &str, output: usize) -> (Outcome, String, Vec<Vec<u32>>) {
    let (r, out, t) = lend(output, |lent| run(book.as_bytes(), lent));
    (r, told(out, r.length), t)
}

/// The image of 01's book.
fn saved() -> Vec<u8> {
    let mut image = vec![7u8; 4096];
    let (r, out, _) = lend(4096, |lent| save(BOOK.as_bytes(), &mut image, lent));
    assert_eq!(r, Saved { number: 0, line: 0, length: ANSWER.len(), image_length: 1024 });
    assert_eq!(told(out, r.length), ANSWER);
    assert!(image[1024..].iter().all(|b| *b == 7));
    image.truncate(1024);
    image
}

fn resume_in(image: &[u8], book: &str) -> (Outcome, String, Vec<Vec<u32>>) {
    let (r, out, t) = lend(4096, |lent| resume(image, book.as_bytes(), lent));
    (r, told(out, r.length), t)
}

#[test]
fn the_book_of_the_scope() {
    let (r, out, t) = run_in(BOOK, 4096);
    assert_eq!(r, Outcome { number: 0, line: 0, length: ANSWER.len() });
    assert_eq!(out, ANSWER);
    assert!(t[2][4 * 12] != 0 && t[2][5 * 12] == 0);
    assert!(t[5].iter().chain(&t[6]).all(|w| *w == 0));
}

#[test]
fn refused_books_leave_zeroed_tables() {
    for (book, output, number, line, answers) in [
        ("", 4096, 1, 1, ""),
        ("fields 32 budget 0\n", 4096, 2, 1, ""),
        ("fields 1 budget 10\ndup\nempty 0\nor 0 1\n", 4096, 4, 4, "fields 1\nempty 0 no 2\n"),
        (BOOK, 30, 27, 6, "fields 1\nempty 2 no 2\n"),
    ] {
        let (r, out, t) = run_in(book, output);
        assert_eq!(r, Outcome { number, line, length: answers.len() });
        assert_eq!(out, answers);
        assert!(t.iter().flatten().all(|w| *w == 0));
    }
}

#[test]
fn a_saved_book_is_continued() {
    let image = saved();
    let (r, out, t) = resume_in(&image, "empty 2\n");
    assert_eq!((r.number, r.line, out.as_str()), (0, 0, "empty 2 no 2\n"));
    assert!(t[5].iter().chain(&t[6]).all(|w| *w == 0));
    // with no line more the next image is the same
    let mut next = vec![7u8; 1024];
    let (r, _, _) = lend(4096, |lent| resume_save(&image, b"", &mut next, lent));
    assert_eq!(r, Saved { number: 0, line: 0, length: 0, image_length: 1024 });
    assert_eq!(image, next);
}

#[test]
fn damaged_images_are_refused() {
    let mut image = saved();
    for (at, number) in [(0, 30), (100, 31), (510, 31), (513, 30), (600, 31), (1023, 31)] {
        image[at] ^= 1;
        let (r, _, t) = resume_in(&image, "empty 2\n");
        assert_eq!(r, Outcome { number, line: 0, length: 0 });
        assert!(t.iter().flatten().all(|w| *w == 0));
        image[at] ^= 1;
    }
    assert_eq!(resume_in(&image[..512], "").0.number, 32);
    assert_eq!(resume_in(&image[..600], "").0.number, 30);
}
