// The same job as playbook's solve, in plain Rust, to measure against: plain solve --diagram FILE [--book FILE].
use std::env;
use std::fmt::Write;
use std::fs;
use std::process::ExitCode;

// The number and place of what is wrong.
struct Refusal(u8, usize);

#[derive(Clone, Copy)]
struct Shape {
    inputs: u8,
    outputs: u8,
    size: u8,
    start: u8,
    records: u16,
}

struct Diagram<'a> {
    bytes: &'a [u8],
    shape: Shape,
}

fn word_at(bytes: &[u8], k: usize) -> u16 {
    u16::from_be_bytes([bytes[k], bytes[k + 1]])
}

fn head_at(p: u8) -> usize {
    8 + 2 * (p as usize - 1)
}

impl Shape {
    fn read(bytes: &[u8]) -> Result<Shape, Refusal> {
        if bytes.len() < 8 {
            return Err(Refusal(14, bytes.len()));
        }
        let shape = Shape {
            inputs: bytes[0],
            outputs: bytes[1],
            size: bytes[2],
            start: bytes[3],
            records: word_at(bytes, 4),
        };
        match shape.header_fault(bytes) {
            Some(k) => Err(Refusal(14, k)),
            None if bytes.len() != shape.length() => Err(Refusal(14, bytes.len())),
            None => match (1..=shape.records).find_map(|r| shape.record_fault(bytes, r)) {
                Some(k) => Err(Refusal(14, k)),
                None => Ok(shape),
            },
        }
    }

    fn length(&self) -> usize {
        8 + 2 * self.size as usize + 8 * self.records as usize
    }

    fn record_at(&self, r: u16) -> usize {
        8 + 2 * self.size as usize + 8 * (r as usize - 1)
    }

    fn header_fault(&self, bytes: &[u8]) -> Option<usize> {
        if self.inputs > 4 {
            Some(0)
        } else if self.outputs > 4 {
            Some(1)
        } else if self.size == 0 {
            Some(2)
        } else if self.start == 0 || self.start > self.size {
            Some(3)
        } else if self.records > 4000 {
            Some(4)
        } else if word_at(bytes, 6) != 0 {
            Some(6)
        } else {
            None
        }
    }

    fn record_fault(&self, bytes: &[u8], r: u16) -> Option<usize> {
        let at = self.record_at(r);
        let record = &bytes[at..at + 8];
        if record[0] >= 1 << self.inputs {
            Some(at)
        } else if record[1] >= 1 << self.outputs {
            Some(at + 1)
        } else if record[2] == 0 || record[2] > self.size {
            Some(at + 2)
        } else if record[3] != 0 {
            Some(at + 3)
        } else if word_at(record, 6) != 0 {
            Some(at + 6)
        } else {
            None
        }
    }
}

impl<'a> Diagram<'a> {
    fn read(bytes: &'a [u8]) -> Result<Diagram<'a>, Refusal> {
        let shape = Shape::read(bytes)?;
        let diagram = Diagram { bytes, shape };
        diagram.check_chains()?;
        diagram.check_moves()?;
        Ok(diagram)
    }

    // Every record is in exactly one chain.
    fn check_chains(&self) -> Result<(), Refusal> {
        let mut marks = [false; 4001];
        for p in 1..=self.shape.size {
            self.check_chain(p, &mut marks)?;
        }
        match (1..=self.shape.records).find(|r| !marks[*r as usize]) {
            Some(r) => Err(Refusal(15, self.shape.record_at(r))),
            None => Ok(()),
        }
    }

    fn check_chain(&self, p: u8, marks: &mut [bool]) -> Result<(), Refusal> {
        let mut at = head_at(p);
        loop {
            let r = word_at(self.bytes, at);
            if r == 0 {
                return Ok(());
            }
            if r > self.shape.records || marks[r as usize] {
                return Err(Refusal(15, at));
            }
            marks[r as usize] = true;
            at = self.shape.record_at(r) + 4;
        }
    }

    // No chain repeats a move.
    fn check_moves(&self) -> Result<(), Refusal> {
        (1..=self.shape.size).try_for_each(|p| self.check_moves_of(p))
    }

    fn check_moves_of(&self, p: u8) -> Result<(), Refusal> {
        let mut marks = [false; 256];
        let mut at = head_at(p);
        loop {
            let r = word_at(self.bytes, at);
            if r == 0 {
                return Ok(());
            }
            let record = self.shape.record_at(r);
            let turn = 16 * self.bytes[record] as usize + self.bytes[record + 1] as usize;
            if marks[turn] {
                return Err(Refusal(16, record));
            }
            marks[turn] = true;
            at = record + 4;
        }
    }

    // Where a round leads from p, 0 where it is lost.
    fn step(&self, p: u8, x: u8, y: u8) -> u8 {
        let mut at = head_at(p);
        loop {
            let r = word_at(self.bytes, at);
            if r == 0 {
                return 0;
            }
            let record = self.shape.record_at(r);
            if self.bytes[record] == x && self.bytes[record + 1] == y {
                return self.bytes[record + 2];
            }
            at = record + 4;
        }
    }

    fn input_count(&self) -> u8 {
        1 << self.shape.inputs
    }

    fn output_count(&self) -> u8 {
        1 << self.shape.outputs
    }
}

// Whether each input has an output that leads to a position of rank above k.
fn keeps(g: &Diagram, ranks: &[u16; 256], k: u16, p: u8) -> bool {
    (0..g.input_count()).all(|x| (0..g.output_count()).any(|y| ranks[g.step(p, x, y) as usize] > k))
}

// The sweep after k: whether no position was dropped.
fn sweep(g: &Diagram, ranks: &mut [u16; 256], k: u16) -> bool {
    let mut none = true;
    for p in 1..=g.shape.size {
        if ranks[p as usize] > k {
            if keeps(g, ranks, k, p) {
                ranks[p as usize] = k + 2;
            } else {
                none = false;
            }
        }
    }
    none
}

// Sweeps until no position is dropped. The answer is the rank that stands for unlimited.
fn settle(g: &Diagram, ranks: &mut [u16; 256]) -> Option<u16> {
    for q in 1..=g.shape.size {
        ranks[q as usize] = 1;
    }
    (0..256).find(|k| sweep(g, ranks, *k)).map(|k| k + 2)
}

// The output whose move has the highest rank, the lowest on ties, and that rank.
fn answer(g: &Diagram, ranks: &[u16; 256], p: u8, x: u8) -> (u8, u16) {
    let mut best = (0, ranks[g.step(p, x, 0) as usize]);
    for y in 1..g.output_count() {
        let rank = ranks[g.step(p, x, y) as usize];
        if rank > best.1 {
            best = (y, rank);
        }
    }
    best
}

// The input whose answer has the lowest rank, the lowest on ties.
fn spoiler(g: &Diagram, ranks: &[u16; 256], p: u8) -> u8 {
    let mut worst = (0, answer(g, ranks, p, 0).1);
    for x in 1..g.input_count() {
        let rank = answer(g, ranks, p, x).1;
        if rank < worst.1 {
            worst = (x, rank);
        }
    }
    worst.0
}

fn write_record(g: &Diagram, ranks: &[u16; 256], top: u16, p: u8, record: &mut [u8]) {
    let rank = ranks[p as usize];
    let limited = rank < top;
    record[0] = if limited { 2 } else { 1 };
    if limited {
        record[4..6].copy_from_slice(&(rank - 1).to_be_bytes());
        record[6] = spoiler(g, ranks, p);
    }
    for x in 0..g.input_count() {
        record[8 + x as usize] = answer(g, ranks, p, x).0;
    }
}

fn solve(g: &Diagram) -> Result<Vec<u8>, Refusal> {
    let mut ranks = [0; 256];
    let top = settle(g, &mut ranks).ok_or(Refusal(21, 0))?;
    let mut book = vec![0; 8 + 24 * g.shape.size as usize];
    book[..5].copy_from_slice(&[1, g.shape.inputs, g.shape.outputs, g.shape.size, g.shape.start]);
    for (p, record) in (1..=g.shape.size).zip(book[8..].chunks_exact_mut(24)) {
        write_record(g, &ranks, top, p, record);
    }
    Ok(book)
}

fn several(n: u8, thing: &str) -> String {
    if n == 1 { format!("1 {thing}") } else { format!("{n} {thing}s") }
}

fn table(g: &Diagram, book: &[u8]) -> Result<String, std::fmt::Error> {
    let mut text = String::new();
    let (inputs, outputs) = (several(g.shape.inputs, "input"), several(g.shape.outputs, "output"));
    let positions = several(g.shape.size, "position");
    writeln!(text, "game: {inputs}, {outputs}, {positions}, start {}", g.shape.start)?;
    for (p, record) in (1..=g.shape.size).zip(book[8..].chunks_exact(24)) {
        if record[0] == 1 {
            write!(text, "position {p}: unlimited, answers")?;
        } else {
            let (count, x) = (word_at(record, 4), record[6]);
            write!(text, "position {p}: limited, count {count}, spoiling input {x}, answers")?;
        }
        for y in &record[8..8 + g.input_count() as usize] {
            write!(text, " {y}")?;
        }
        text.push('\n');
    }
    writeln!(text, "book: {} bytes", book.len())?;
    Ok(text)
}

fn run(diagram: &str, file: Option<&str>) -> Result<(), String> {
    let bytes = fs::read(diagram).map_err(|e| format!("cannot read {diagram}: {e}"))?;
    let refused = |Refusal(number, place)| format!("refusal {number} at {place}");
    let game = Diagram::read(&bytes).map_err(refused)?;
    let book = solve(&game).map_err(refused)?;
    print!("{}", table(&game, &book).map_err(|e| e.to_string())?);
    match file {
        Some(path) => fs::write(path, &book).map_err(|e| format!("cannot write {path}: {e}")),
        None => Ok(()),
    }
}

fn main() -> ExitCode {
    let words: Vec<String> = env::args().skip(1).collect();
    let words: Vec<&str> = words.iter().map(String::as_str).collect();
    let result = match words[..] {
        ["solve", "--diagram", diagram] => run(diagram, None),
        ["solve", "--diagram", diagram, "--book", book] => run(diagram, Some(book)),
        _ => Err("usage: plain solve --diagram FILE [--book FILE]".to_string()),
    };
    match result {
        Ok(()) => ExitCode::SUCCESS,
        Err(message) => {
            eprintln!("{message}");
            ExitCode::FAILURE
        }
    }
}
