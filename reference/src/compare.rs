//! Many cases, on several threads: the first difference ends it.

use crate::case::{self, Difference};
use crate::product::Product;
use crate::report::Report;
#[cfg(feature = "library")]
use crate::{generate, linked, random::Random};
use std::path::{Path, PathBuf};
use std::sync::atomic::{AtomicBool, Ordering};

pub struct Plan {
    /// Calls the product's library, not its program.
    pub library: bool,
    pub program: PathBuf,
    pub folder: PathBuf,
    pub seed: u64,
    pub first: u64,
    pub cases: u64,
    pub jobs: u64,
}

/// A difference, and where its files stand.
pub struct Found {
    pub case: u64,
    pub folder: PathBuf,
    pub difference: Difference,
}

/// Every so many cases a line says how far it is.
const PROGRESS: u64 = 50_000;

/// Deep texts make deep trees.
const STACK: usize = 256 << 20;

pub fn compare(plan: &Plan) -> (Report, Option<Found>) {
    let stop = AtomicBool::new(false);
    let outcomes: Vec<(Report, Option<Found>)> = std::thread::scope(|scope| {
        let spawn = |job| {
            let stop = &stop;
            let builder = std::thread::Builder::new().stack_size(STACK);
            builder.spawn_scoped(scope, move || cases(plan, job, stop)).expect("a thread can be started")
        };
        let threads: Vec<_> = (0..plan.jobs).map(spawn).collect();
        threads.into_iter().map(|thread| thread.join().expect("a thread ends")).collect()
    });
    let mut report = Report::default();
    outcomes.iter().for_each(|(part, _)| report.add(part));
    let found = outcomes.into_iter().filter_map(|(_, found)| found).min_by_key(|found| found.case);
    (report, found)
}

/// Every so manieth case, until there is a difference anywhere.
fn cases(plan: &Plan, job: u64, stop: &AtomicBool) -> (Report, Option<Found>) {
    let mut report = Report::default();
    let folder: &Path = &plan.folder.join(format!("job{job}"));
    let product = Product::new(&plan.program, folder).expect("a folder for the files can be made");
    let mine = (plan.first..plan.first + plan.cases).filter(|case| case % plan.jobs == job);
    for case in mine.take_while(|_| !stop.load(Ordering::Relaxed)) {
        report.count("cases");
        if case > plan.first && case % PROGRESS == 0 {
            eprintln!("at case {case}");
        }
        if let Err(difference) = one_case(plan, &product, case, &mut report) {
            stop.store(true, Ordering::Relaxed);
            return (report, Some(Found { case, folder: product.folder().to_path_buf(), difference }));
        }
    }
    (report, None)
}

#[cfg(feature = "library")]
fn one_case(plan: &Plan, product: &Product, number: u64, report: &mut Report) -> Result<(), Difference> {
    if !plan.library {
        return case::run(product, plan.seed, number, report);
    }
    let outcome = linked::run(plan.seed, number, report);
    if outcome.is_err() {
        product.lay(&generate::sources(&mut Random::of_case(plan.seed, number)))?;
    }
    outcome
}

#[cfg(not(feature = "library"))]
fn one_case(plan: &Plan, product: &Product, number: u64, report: &mut Report) -> Result<(), Difference> {
    case::run(product, plan.seed, number, report)
}
