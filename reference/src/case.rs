//! One case: random sources, and all that the product says of them beside what it has to say.

use crate::book::{accept, book};
use crate::game::{Game, Round};
use crate::generate::rows::{row, Line};
use crate::generate::{self, books};
use crate::inside;
use crate::parts::Parts;
use crate::print;
use crate::product::{Product, Said, Words};
use crate::random::Random;
use crate::refusal::Refusal;
use crate::report::Report;
use crate::source::{read, read_texts, Read, Refused, Source, Within};
use crate::tally::{Call, Told};
use crate::winning::{values, Values};

/// What differs, in words.
pub struct Difference(pub String);

impl From<std::io::Error> for Difference {
    fn from(error: std::io::Error) -> Difference {
        Difference(format!("the program could not be run: {error}"))
    }
}

impl From<String> for Difference {
    fn from(said: String) -> Difference {
        Difference(format!("inside the reference: {said}"))
    }
}

type Checked = Result<(), Difference>;

/// What stands where a book is to be written.
const BEFORE: &[u8] = b"what stood here before";

pub struct Case<'p> {
    product: &'p Product,
    random: Random,
    report: &'p mut Report,
    sources: Vec<Source>,
    /// The words that name the sources.
    words: Words,
}

/// A game, what there is to say of it, and its own book.
struct Solved<'r> {
    game: &'r Game,
    values: Values,
    book: Vec<u8>,
    read: &'r [Read],
}

pub fn run(product: &Product, seed: u64, number: u64, report: &mut Report) -> Checked {
    let mut random = Random::of_case(seed, number);
    let sources = generate::sources(&mut random);
    let words = product.lay(&sources)?;
    let mut case = Case { product, random, report, sources, words };
    case.parts()?;
    case.games()
}

impl Case<'_> {
    fn say(&self, command: &str, more: &[String], input: &[u8]) -> std::io::Result<(String, Said)> {
        let words: Words = [command.to_string()].iter().chain(&self.words).chain(more).cloned().collect();
        let said = self.product.say(&words, input)?;
        Ok((words.join(" "), said))
    }

    /// A command that has to be served with this output.
    fn serves(&self, command: &str, more: &[String], input: &[u8], due: &str) -> Checked {
        let (line, said) = self.say(command, more, input)?;
        if said.status == 0 && said.err.is_empty() && said.out == due.as_bytes() {
            return Ok(());
        }
        Err(differs(&line, due, &said))
    }

    /// A command that has to be refused; `end` is how its first line ends, and `below` what stands below that line.
    fn refuses(&mut self, command: &str, more: &[String], refusal: Refusal, end: &str, below: &str) -> Checked {
        let (line, said) = self.say(command, more, b"")?;
        let err = String::from_utf8_lossy(&said.err).into_owned();
        let (first, rest) = err.split_once('\n').unwrap_or((&err, ""));
        if command == "solve" && more.len() == 2 && std::fs::read(&more[1])? != BEFORE {
            return Err(Difference(format!("{line}\nis refused and writes a book")));
        }
        let words = first.strip_prefix(&refusal.head()).and_then(|words| words.strip_suffix(end));
        let is_told = words.is_some_and(|words| !words.is_empty());
        if said.status == 1 && said.out.is_empty() && is_told && rest == below {
            self.report.refused(refusal.number);
            return Ok(());
        }
        Err(differs(&line, &format!("{}...{end}\n{below}", refusal.head()), &said))
    }

    fn refuses_source(&mut self, command: &str, more: &[String], number: usize, refused: Refused) -> Checked {
        let file = |name: &str| format!(" (in {})", self.product.file(&format!("{name}{number}")));
        let (end, below) = match (&self.sources[number], refused.within) {
            (Source::Texts { signals, rule }, Within::Signals) => (file("signals"), refused.below(signals, rule)),
            (Source::Texts { signals, rule }, _) => (file("rule"), refused.below(signals, rule)),
            (Source::Diagram(_), _) => (String::new(), String::new()),
        };
        self.refuses(command, more, refused.refusal, &end, &below)
    }

    /// The parts of a rule that is the only source.
    fn parts(&mut self) -> Checked {
        let [Source::Texts { signals, rule }] = &self.sources[..] else {
            return Ok(());
        };
        match read_texts(signals, rule) {
            Ok((signals, rule)) => {
                self.report.count("parts printed");
                self.serves("parts", &[], b"", &Parts::of(&rule).print(&signals))
            }
            Err(refused) => self.refuses_source("parts", &[], 0, refused),
        }
    }

    fn games(&mut self) -> Checked {
        let read: Vec<Result<Read, Refused>> = self.sources.iter().map(read).collect();
        if read.iter().any(Result::is_err) {
            return self.refused(&read);
        }
        let games: Vec<Read> = read.into_iter().flatten().collect();
        let paired = games[1..].iter().fold(games[0].game.clone(), |one, two| Game::pair(&one, &two.game));
        if paired.size == 0 {
            return self.size_zero();
        }
        self.report.count(if games.len() == 1 { "games of one source" } else { "games of a pair" });
        let values = values(&paired);
        let book = book(&paired, &values);
        let solved = Solved { game: &paired, values, book, read: &games };
        self.game(&solved)
    }

    /// Where both sources of a pair are refused, the documents leave open which refusal is told.
    fn refused(&mut self, read: &[Result<Read, Refused>]) -> Checked {
        let command = self.random.pick(&["solve", "solve", "show", "check", "run"]);
        let wrong: Vec<(usize, Refused)> =
            read.iter().enumerate().filter_map(|(number, read)| Some((number, *read.as_ref().err()?))).collect();
        let book = self.product.lay_book(BEFORE)?;
        let more = if command == "show" { &[] } else { &book[..] };
        let told: Vec<Checked> =
            wrong.iter().map(|(number, refused)| self.refuses_source(command, more, *number, *refused)).collect();
        told.into_iter().reduce(Result::or).expect("a source is refused")
    }

    /// A pair that is too large: whatever the book, 17 comes first.
    fn size_zero(&mut self) -> Checked {
        self.report.count("games of size 0");
        let book = self.product.lay_book(BEFORE)?;
        let refusal = Refusal::new(17, 0);
        self.refuses("solve", &book, refusal, "", "")?;
        self.refuses("show", &[], refusal, "", "")?;
        self.refuses("check", &book, refusal, "", "")?;
        self.refuses("run", &book, refusal, "", "")
    }

    fn game(&mut self, solved: &Solved) -> Checked {
        inside::counts(solved.game, &solved.values, self.report)?;
        inside::verdicts(solved.read, solved.game, &mut self.random, self.report)?;
        if self.random.once_in(4) {
            self.report.count("moves shown");
            self.serves("show", &[], b"", &print::moves(solved.game))?;
        }
        self.solving(solved)?;
        self.books(solved)?;
        self.row(solved)
    }

    fn solving(&mut self, solved: &Solved) -> Checked {
        self.report.count("books written");
        let book = self.product.lay_book(BEFORE)?;
        self.serves("solve", &book, b"", &print::solved(solved.game, &solved.values))?;
        let written = std::fs::read(&book[1])?;
        if written == solved.book {
            return Ok(());
        }
        Err(Difference(format!("the book\nours:   {}\ntheirs: {}", hex(&solved.book), hex(&written))))
    }

    fn books(&mut self, solved: &Solved) -> Checked {
        for _ in 0..2 {
            let bytes = books::damaged(&mut self.random, &solved.book);
            let book = self.product.lay_book(&bytes)?;
            match accept(solved.game, &solved.book, &bytes) {
                Ok(()) => {
                    self.report.count("books accepted");
                    self.serves("check", &book, b"", &format!("accepted: {} bytes\n", bytes.len()))?;
                }
                Err(refusal) => {
                    let command = if self.random.once_in(8) { "run" } else { "check" };
                    self.report.count("books damaged");
                    self.refuses(command, &book, refusal, "", "")?;
                }
            }
        }
        Ok(())
    }

    fn row(&mut self, solved: &Solved) -> Checked {
        let lines = row(&mut self.random, solved.game, &solved.values);
        let input: String = lines.iter().map(|line| format!("{}\n", line.text)).collect();
        let book = self.product.lay_book(&solved.book)?;
        let (command, said) = self.say("run", &book, input.as_bytes())?;
        let out = String::from_utf8_lossy(&said.out).into_owned();
        let answers: Vec<&str> = out.lines().collect();
        let right = answers.iter().zip(&lines).all(|(answer, line)| is_told(answer, line));
        let all_told = right && answers.len() == lines.len();
        self.report.count("rows");
        self.report.count_many("calls of rows", lines.len() as u64);
        lines.iter().for_each(|line| self.count_refusal(line));
        if said.status != 0 || !said.err.is_empty() || !all_told {
            let told = |line: &Line| line.told.map_or("that it is no call".into(), |told| told.to_string());
            let due: String = lines.iter().map(|line| format!("{}: {}\n", line.text, told(line))).collect();
            return Err(differs(&format!("{command}\nwith the calls\n{input}"), &due, &said));
        }
        self.verdicts(solved, &lines, &answers)
    }

    fn count_refusal(&mut self, line: &Line) {
        match &line.told {
            Some(Told::Refused(refusal)) => self.report.refused(refusal.number),
            Some(Told::NotAllowed) => self.report.count("calls not allowed"),
            Some(_) => {}
            None => self.report.count("lines that are no calls"),
        }
    }

    /// The product's positions against the truth of the negation: after each closing, the position was asked for.
    fn verdicts(&mut self, solved: &Solved, lines: &[Line], answers: &[&str]) -> Checked {
        let mut open = Round { input: 0, output: 0 };
        let mut closed = Vec::new();
        for (k, answer) in answers.iter().enumerate() {
            match (lines[k].call, answer.strip_prefix("output ")) {
                (Some(Call::Open(input)), Some(output)) => open = Round { input, output: output.parse().unwrap_or(99) },
                (Some(Call::Set(output)), _) if *answer == "set" => open.output = output,
                (Some(Call::Close), _) if *answer == "closed" => closed.push(open),
                _ => continue,
            }
            if *answer != "closed" {
                continue;
            }
            let lost = solved.read.iter().any(|source| source.is_lost_after(&closed));
            self.report.count("verdicts: product and negation");
            let said = answers[k + 1];
            if lost != (said == "position none") {
                return Err(Difference(format!("the negation says lost: {lost}, the product {said}\n{closed:?}")));
            }
        }
        Ok(())
    }
}

fn is_told(answer: &str, line: &Line) -> bool {
    match &line.told {
        Some(Told::Refused(refusal)) => answer.starts_with(&refusal.head()) && answer.len() > refusal.head().len(),
        Some(told) => answer == told.to_string(),
        None => answer.contains("call") && answer.contains("open"),
    }
}

fn differs(command: &str, due: &str, said: &Said) -> Difference {
    let text = |bytes: &[u8]| String::from_utf8_lossy(bytes).into_owned();
    Difference(format!(
        "{command}\n--- due\n{due}\n--- said, status {}\n{}--- and on the standard error\n{}",
        said.status,
        text(&said.out),
        text(&said.err)
    ))
}

fn hex(bytes: &[u8]) -> String {
    bytes.iter().map(|byte| format!("{byte:02x} ")).collect()
}
