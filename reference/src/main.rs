//! Compares the product with a second program made from its documents alone. See README.md beside this folder.

mod book;
mod case;
mod compare;
mod controllers;
mod diagram;
mod explore;
mod failing;
mod game;
mod generate;
mod grammar;
mod horn;
mod inside;
#[cfg(feature = "library")]
mod library;
#[cfg(feature = "library")]
mod linked;
mod lists;
mod negation;
mod parts;
mod print;
mod product;
mod random;
mod refusal;
mod report;
mod rule;
mod signals;
mod source;
mod tally;
mod winning;
mod words;

use compare::{compare, Plan};
use std::process::ExitCode;

const USAGE: &str = "\
usage: reference compare [--seed N] [--first K] [--cases M] [--jobs J] [--folder FOLDER] [--program FILE]
       reference compare-library [--seed N] [--first K] [--cases M] [--jobs J] [--folder FOLDER]
compare-library is there where the reference is built by linked.sh";

fn main() -> ExitCode {
    let args: Vec<String> = std::env::args().skip(1).collect();
    match plan(&args) {
        Some(plan) => report(&plan),
        None => {
            eprintln!("{USAGE}");
            ExitCode::from(2)
        }
    }
}

fn plan(args: &[String]) -> Option<Plan> {
    let [command, options @ ..] = args else { return None };
    let mut plan = Plan {
        program: "crates/playbook/out/playbook".into(),
        library: command == "compare-library",
        folder: std::env::temp_dir().join(format!("reference{}", std::process::id())),
        seed: 1,
        first: 0,
        cases: 1000,
        jobs: 1,
    };
    for pair in options.chunks(2) {
        let [name, value] = pair else { return None };
        match name.as_str() {
            "--seed" => plan.seed = value.parse().ok()?,
            "--first" => plan.first = value.parse().ok()?,
            "--cases" => plan.cases = value.parse().ok().filter(|cases| *cases > 0)?,
            "--jobs" => plan.jobs = value.parse().ok().filter(|jobs| *jobs > 0)?,
            "--program" => plan.program = value.into(),
            "--folder" => plan.folder = value.into(),
            _ => return None,
        }
    }
    (command == "compare" || plan.library && cfg!(feature = "library")).then_some(plan)
}

fn report(plan: &Plan) -> ExitCode {
    println!("seed {}, cases {} to {}", plan.seed, plan.first, plan.first + plan.cases - 1);
    let (report, found) = compare(plan);
    print!("{}", report.print());
    match found {
        None => {
            drop(std::fs::remove_dir_all(&plan.folder));
            println!("no difference");
            ExitCode::SUCCESS
        }
        Some(found) => {
            println!(
                "difference in case {} of seed {}, with the files in {}",
                found.case,
                plan.seed,
                found.folder.display()
            );
            println!("{}", found.difference.0);
            ExitCode::FAILURE
        }
    }
}
