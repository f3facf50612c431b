//! Answers request lines by computing the definitions of crates/*/specs in the checker: the same lines in and out as the
//! product's own `lines`, so that the definitions can be held against any outside vectors.
//!
//!     definitions REPOSITORY < requests > answers

mod answer;
mod ask;
mod request;
mod words;

use request::Request;
use std::io::{Read, Write};

/// As many requests as one check of the checker takes at a time.
const BATCH: usize = 250;

fn main() {
    let Some(repository) = std::env::args().nth(1) else {
        eprintln!("usage: definitions REPOSITORY < requests > answers");
        std::process::exit(2);
    };
    let mut text = String::new();
    if let Err(why) = std::io::stdin().read_to_string(&mut text) {
        eprintln!("definitions: standard input: {why}");
        std::process::exit(2);
    }
    let checker = match ask::Checker::over(&repository) {
        Ok(checker) => checker,
        Err(why) => {
            eprintln!("definitions: {why}");
            std::process::exit(2);
        }
    };
    let lines: Vec<&str> = text.lines().collect();
    for batch in lines.chunks(BATCH) {
        for line in answers(&checker, batch) {
            println!("{line}");
        }
        let _ = std::io::stdout().flush();
    }
}

/// One answer for each line, in order.
fn answers(checker: &ask::Checker, lines: &[&str]) -> Vec<String> {
    let requests: Vec<Result<Request, String>> = lines.iter().map(|line| Request::parse(line)).collect();
    let readable: Vec<&Request> = requests.iter().filter_map(|r| r.as_ref().ok()).collect();
    let mut computed = checker.compute(&readable).into_iter();
    requests
        .iter()
        .map(|request| match request {
            Err(why) => format!("error {why}"),
            Ok(request) => match computed.next().flatten() {
                Some(words) => answer::line(request, &words),
                None => "error the checker computed no answer".to_string(),
            },
        })
        .collect()
}
