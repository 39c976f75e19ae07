//! `pimtree replay` of one capture in plain Rust, which prints the same report:
//!
//!     plain replay [--rp ADDRESS] [--limit N] [--after MS] ADDRESS@FILE
//!
//! It has the steps of the Rattle program: records one by one, each packet judged and heard, each message walked once
//! to be heard, and near the limit once more to count what it needs. The machines of a group stand in order, groups in
//! a map of the standard library, and the ends of their timers in a heap: a timer that is put off stays there until its
//! first end comes.
mod address;
mod fault;
mod frame;
mod group;
mod hello;
mod join_prune;
mod machine;
mod neighbours;
mod pcap;
mod records;
mod report;
mod router;
mod sorted;

use address::Address;
use report::Replay;
use router::Router;
use std::env;
use std::fs::File;
use std::io::{self, BufReader, BufWriter, Write};
use std::process::ExitCode;

/// The words of the command line.
#[derive(Default)]
struct Words {
    rp: Option<String>,
    limit: Option<String>,
    after: Option<String>,
    port: Option<String>,
}

/// What is to be replayed.
struct Plan<A> {
    router: Router<A>,
    after_ms: u64,
    file: String,
}

fn words() -> Option<Words> {
    let mut told = env::args().skip(1);
    if told.next()? != "replay" {
        return None;
    }
    let mut words = Words::default();
    while let Some(word) = told.next() {
        match word.as_str() {
            "--rp" => words.rp = Some(told.next()?),
            "--limit" => words.limit = Some(told.next()?),
            "--after" => words.after = Some(told.next()?),
            _ => words.port = Some(word),
        }
    }
    Some(words)
}

/// What the words ask for, where their addresses are of this family.
fn plan<A: Address>(words: &Words) -> Option<Plan<A>> {
    let (address, file) = words.port.as_ref()?.split_once('@')?;
    let address = A::parse(address)?;
    let rp = match &words.rp {
        Some(rp) => Some(A::parse(rp)?),
        None => None,
    };
    let limit = words.limit.as_ref().map_or(Some(100_000), |limit| limit.parse().ok())?;
    let after_ms = words.after.as_ref().map_or(Some(0), |after| after.parse().ok())?;
    Some(Plan { router: Router::new(address, rp, limit), after_ms, file: file.to_string() })
}

fn replay<A: Address>(plan: Plan<A>) -> Result<(), String> {
    let file = File::open(&plan.file).map_err(|_| format!("file {}", plan.file))?;
    let mut out = BufWriter::new(io::stdout().lock());
    let told = Replay::new(plan.router, &mut out).run(BufReader::new(file), plan.after_ms);
    out.flush().map_err(|_| "output".to_string())?;
    told.map_err(|fault| fault.to_string())
}

fn run() -> Result<(), String> {
    let words = words().ok_or("words")?;
    if let Some(plan) = plan::<u32>(&words) {
        return replay(plan);
    }
    replay(plan::<u128>(&words).ok_or("words")?)
}

fn main() -> ExitCode {
    match run() {
        Ok(()) => ExitCode::SUCCESS,
        Err(fault) => {
            eprintln!("pimtree: {fault}");
            ExitCode::from(2)
        }
    }
}
