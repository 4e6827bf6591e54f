// Solves a diagram and runs two rounds by its book, and shows a refusal: the library from Rust, with no packages.
use std::{env, fs, process};

#[repr(C)]
#[derive(Clone, Copy, Debug, PartialEq, Eq)]
struct Outcome {
    number: u32,
    layer: u32,
    text: u32,
    place: usize,
    length: usize,
}

#[repr(C)]
struct Call {
    kind: u8,
    number: u8,
}

#[repr(C)]
#[derive(Clone, Copy, Debug, Default, PartialEq, Eq)]
struct Answer {
    kind: u32,
    value: i32,
    position: u32,
    count: i32,
}

const LONGEST_BOOK: usize = 6128;

#[link(name = "cuzzambra", kind = "static")]
extern "C" {
    fn cuzzambra_solve_diagram(diagram: *const u8, diagram_length: usize, book: *mut u8, book_length: usize) -> Outcome;

    fn cuzzambra_replay_diagram(
        diagram: *const u8,
        diagram_length: usize,
        book: *const u8,
        book_length: usize,
        row: *const Call,
        row_length: usize,
        answers: *mut Answer,
        answers_length: usize,
    ) -> Outcome;
}

// What was served, or the refusal.
fn served(outcome: Outcome) -> Result<usize, Outcome> {
    if outcome.number == 0 { Ok(outcome.length) } else { Err(outcome) }
}

fn solve(diagram: &[u8]) -> Result<Vec<u8>, Outcome> {
    let mut book = vec![0; LONGEST_BOOK];
    // SAFETY: both buffers are slices of the lengths that are given, and the written one is borrowed alone.
    let outcome = unsafe { cuzzambra_solve_diagram(diagram.as_ptr(), diagram.len(), book.as_mut_ptr(), book.len()) };
    book.truncate(served(outcome)?);
    Ok(book)
}

fn replay(diagram: &[u8], book: &[u8], row: &[Call]) -> Result<Vec<Answer>, Outcome> {
    let mut answers = vec![Answer::default(); row.len()];
    // SAFETY: as in `solve`.
    let outcome = unsafe {
        cuzzambra_replay_diagram(
            diagram.as_ptr(),
            diagram.len(),
            book.as_ptr(),
            book.len(),
            row.as_ptr(),
            row.len(),
            answers.as_mut_ptr(),
            answers.len(),
        )
    };
    served(outcome)?;
    Ok(answers)
}

fn show(diagram: &[u8]) -> Result<(), Outcome> {
    let book = solve(diagram)?;
    println!("book: {} bytes", book.len());
    let row = [(6, 0), (1, 2), (2, 0), (3, 0), (6, 0), (7, 0), (1, 9), (3, 0)].map(|(kind, number)| Call { kind, number });
    for answer in replay(diagram, &book, &row)? {
        println!("{answer:?}");
    }
    let Err(refusal) = solve(&diagram[..7]) else {
        return Ok(());
    };
    println!("seven bytes: {refusal:?}");
    Ok(())
}

fn main() {
    let Some(file) = env::args().nth(1) else {
        eprintln!("usage: example DIAGRAM");
        process::exit(1);
    };
    let diagram = fs::read(&file).expect("the diagram's file can be read");
    if let Err(refusal) = show(&diagram) {
        eprintln!("refused: {refusal:?}");
        process::exit(1);
    }
}
