//! One case for the library: each source by itself, solved, its book accepted or refused, and a row of calls.

use crate::book::{accept, book};
use crate::case::Difference;
use crate::game::{Game, Round};
use crate::generate::{self, books, rows};
use crate::inside;
use crate::library::{self, Answer, Entry, Outcome};
use crate::random::Random;
use crate::refusal::Refusal;
use crate::report::Report;
use crate::source::{read, Read, Refused, Source};
use crate::tally::{Call, Tally};
use crate::winning::{values, Values};
use std::fmt::{Debug, Display};

type Checked = Result<(), Difference>;

const NOTHING: Answer = Answer { kind: 77, value: 77, position: 77, count: 77 };

pub fn run(seed: u64, number: u64, report: &mut Report) -> Checked {
    let mut random = Random::of_case(seed, number);
    let sources = generate::sources(&mut random);
    sources.iter().try_for_each(|source| Linked { source, random: &mut random, report }.source())
}

struct Linked<'c> {
    source: &'c Source,
    random: &'c mut Random,
    report: &'c mut Report,
}

/// A game and its book.
struct Solved {
    game: Game,
    values: Values,
    book: Vec<u8>,
}

fn same<T: PartialEq + Debug>(what: impl Display, due: T, said: T) -> Checked {
    if due == said {
        return Ok(());
    }
    Err(Difference(format!("{what}\n--- due\n{due:?}\n--- said\n{said:?}")))
}

impl Linked<'_> {
    fn source(&mut self) -> Checked {
        match read(self.source) {
            Ok(read) => self.game(read),
            Err(refused) => self.refused(refused),
        }
    }

    /// Whatever else is handed in, the source's refusal comes first, and nothing is written.
    fn refused(&mut self, refused: Refused) -> Checked {
        self.report.refused(refused.refusal.number);
        let due = Outcome::of_source(refused);
        let mut bytes: Vec<u8> = (0..self.random.below(100)).map(|_| 0xaa).collect();
        let row = [Entry { kind: self.random.below(10) as u8, number: 0 }];
        let mut answers = vec![NOTHING; self.random.below(3)];
        let outcome = match self.random.below(3) {
            0 => library::solve(self.source, &mut bytes),
            1 => library::accept(self.source, &bytes),
            _ => library::replay(self.source, &bytes, &row, &mut answers),
        };
        same("a wrong source", due, outcome)?;
        same("the book's store", true, bytes.iter().all(|byte| *byte == 0xaa))?;
        same("the answers' store", true, answers.iter().all(|answer| *answer == NOTHING))
    }

    fn game(&mut self, read: Read) -> Checked {
        self.report.count("games of one source");
        let values = values(&read.game);
        inside::counts(&read.game, &values, self.report)?;
        inside::verdicts(std::slice::from_ref(&read), &read.game, self.random, self.report)?;
        let book = book(&read.game, &values);
        let solved = Solved { game: read.game.clone(), values, book };
        self.solving(&solved)?;
        self.books(&solved)?;
        let said = self.row(&solved)?;
        self.verdicts(&read, &said)
    }

    fn solving(&mut self, solved: &Solved) -> Checked {
        self.report.count("books written");
        let own = &solved.book;
        let room = match self.random.below(4) {
            0 => self.random.below(own.len()),
            1 => own.len(),
            _ => own.len() + self.random.below(50),
        };
        let mut store = vec![0xaa; room];
        let mut due = store.clone();
        let outcome = if room < own.len() {
            self.report.refused(13);
            Outcome::refused(Refusal::new(13, 0))
        } else {
            due[..own.len()].copy_from_slice(own);
            Outcome::served(own.len())
        };
        same("solving", outcome, library::solve(self.source, &mut store))?;
        same("the book's store", due, store)
    }

    fn books(&mut self, solved: &Solved) -> Checked {
        if self.random.once_in(4) {
            return self.book(solved, &solved.book);
        }
        let bytes = books::damaged(self.random, &solved.book);
        self.book(solved, &bytes)
    }

    fn book(&mut self, solved: &Solved, bytes: &[u8]) -> Checked {
        let due = match accept(&solved.game, &solved.book, bytes) {
            Ok(()) => {
                self.report.count("books accepted");
                Outcome::served(bytes.len())
            }
            Err(refusal) => {
                self.report.count("books damaged");
                self.report.refused(refusal.number);
                Outcome::refused(refusal)
            }
        };
        same(format_args!("accepting the book {bytes:02x?}"), due, library::accept(self.source, bytes))
    }

    /// A row of calls; gives what it held and what was said to it, if it was served.
    fn row(&mut self, solved: &Solved) -> Result<Vec<(Call, Answer)>, Difference> {
        let lines = rows::row(self.random, &solved.game, &solved.values);
        let calls: Vec<Call> = lines.iter().filter_map(|line| line.call).collect();
        let mut tally = Tally::new(&solved.game, &solved.values);
        let mut told = |call: &Call| {
            let told = tally.take(*call);
            Answer::of(*call, told, tally.position(), tally.count())
        };
        let due: Vec<Answer> = calls.iter().map(&mut told).collect();
        self.report.count("rows");
        self.report.count_many("calls of rows", calls.len() as u64);
        due.iter().filter(|answer| answer.kind == 8).for_each(|answer| self.report.refused(answer.value as u8));
        let mut row: Vec<Entry> = calls.iter().map(|call| Entry::of(*call)).collect();
        if self.random.once_in(8) {
            self.wrong_row(solved, &mut row)?;
            return Ok(Vec::new());
        }
        let mut answers = vec![NOTHING; row.len() + self.random.below(3)];
        let outcome = library::replay(self.source, &solved.book, &row, &mut answers);
        same(format_args!("replaying {calls:?}"), Outcome::served(row.len()), outcome)?;
        let due = due.into_iter().chain(std::iter::repeat_n(NOTHING, answers.len() - row.len())).collect();
        same(format_args!("the answers to {calls:?}"), due, answers.clone())?;
        Ok(calls.into_iter().zip(answers).collect())
    }

    /// A store that is too short, a kind that no call has, a book that is not the game's: the first of them is told.
    fn wrong_row(&mut self, solved: &Solved, row: &mut [Entry]) -> Checked {
        let room = if self.random.once_in(2) { self.random.below(row.len() + 1) } else { row.len() };
        let book = if self.random.once_in(2) { books::damaged(self.random, &solved.book) } else { solved.book.clone() };
        if self.random.once_in(2) {
            let at = self.random.below(row.len());
            row[at].kind = self.random.pick(&[0, 8, 9, 10, 255]);
        }
        let strange = row.iter().position(|entry| !(1..=7).contains(&entry.kind));
        let due = match (room < row.len(), strange, book == solved.book) {
            (true, ..) => Outcome::refused(Refusal::new(13, 0)),
            (_, Some(place), _) => Outcome::refused(Refusal::new(2, place)),
            (_, _, false) => Outcome::refused(Refusal::new(18, 0)),
            _ => Outcome::served(row.len()),
        };
        let mut answers = vec![NOTHING; room];
        self.report.count("rows with something wrong");
        same("replaying a wrong row", due, library::replay(self.source, &book, row, &mut answers))?;
        let untouched = answers.iter().all(|answer| *answer == NOTHING);
        same("the answers' store", due != Outcome::served(row.len()) || row.is_empty(), untouched)
    }

    /// The product's answers against the truth of the negation.
    fn verdicts(&mut self, read: &Read, said: &[(Call, Answer)]) -> Checked {
        let mut open = Round { input: 0, output: 0 };
        let mut closed = Vec::new();
        for (call, answer) in said {
            match (call, answer.kind) {
                (Call::Open(input), 1) => open = Round { input: *input, output: answer.value as usize },
                (Call::Set(output), 2) => open.output = *output,
                (Call::Close, 3) => {
                    closed.push(open);
                    self.report.count("verdicts: product and negation");
                    same(format_args!("lost after {closed:?}"), read.is_lost_after(&closed), answer.position == 0)?;
                }
                _ => {}
            }
        }
        Ok(())
    }
}
