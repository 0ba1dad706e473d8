//! An unproved program that does what `vkreplay` does, to measure `vkreplay` against: the same words, output and
//! statuses, but for want of memory, which aborts it. It is written for speed: objects stand in dense tables, open uses
//! are found by object, and lines and calls go through room that is used again. It needs no crate:
//!
//!     rustc --edition 2021 -C opt-level=3 -C lto=fat -C codegen-units=1 -C panic=abort -o plain main.rs
//!
//! It keeps 16 bytes of each object for ever and 48 of a living one, whose room is used again; a name takes 4. The uses
//! of a call are entered where another call is open.

mod chain;
mod driver;
mod filters;
mod gen;
mod json;
mod manifest;
mod out;
mod search;
mod session;
mod table;
mod trace;
mod uses;
mod words;
mod world;

use filters::Env;
use gen::Generator;
use out::{Lines, Output, Silent};
use search::SearchError;
use session::{Session, Stop};
use std::fs::File;
use std::io::Write;
use std::os::fd::FromRawFd;
use words::{Command, Replay};

/// Why a run doesn't end `Clean` or `Reported`.
enum End {
    Usage,
    Stop(Stop),
    Read,
    Write,
    Manifests,
}

impl From<SearchError> for End {
    fn from(e: SearchError) -> End {
        match e {
            SearchError::Tree => End::Read,
            SearchError::TooMany => End::Manifests,
        }
    }
}

impl From<out::ReadFault> for End {
    fn from(_: out::ReadFault) -> End {
        End::Read
    }
}

impl From<out::WriteFault> for End {
    fn from(_: out::WriteFault) -> End {
        End::Write
    }
}

impl From<Stop> for End {
    fn from(stop: Stop) -> End {
        End::Stop(stop)
    }
}

fn standard(fd: i32) -> File {
    // The process owns its standard descriptors, and each is taken at most once.
    unsafe { File::from_raw_fd(fd) }
}

/// True where there was a report.
fn work(words: &[String], output: &mut Output) -> Result<bool, End> {
    let setup_of = |r: &Replay| chain::read_setup(&r.root, &Env::of_process(), &r.exe);
    match words::parse(words).ok_or(End::Usage)? {
        Command::Gen { number, calls } => {
            let mut generator = Generator::new(number, calls);
            loop {
                let piece = generator.piece();
                if piece.is_empty() {
                    break;
                }
                output.bytes(piece);
                output.flush()?;
            }
            Ok(false)
        }
        Command::Chain { root, exe, layers } => {
            let setup = chain::read_setup(&root, &Env::of_process(), &exe)?;
            setup.note_lines(output);
            let answer = setup.build(&layers).map_err(|_| Stop::Limit("Chain", 64))?;
            setup.chain_lines(0, &answer, output);
            Ok(false)
        }
        Command::Run(replay) => {
            let setup = setup_of(&replay)?;
            setup.note_lines(output);
            let mut session = Session::new(&setup, replay.policy, replay.rule);
            session::run(&mut session, standard(0), output, |out| out.flush().map_err(End::from))?;
            Ok(finish(&session, output))
        }
        Command::Soak { replay, number, calls } => {
            let setup = setup_of(&replay)?;
            let mut session = Session::new(&setup, replay.policy, replay.rule);
            session::run(&mut session, Generator::new(number, calls), &mut Silent, |_| Ok::<(), End>(()))?;
            Ok(finish(&session, output))
        }
    }
}

fn finish(session: &Session, output: &mut Output) -> bool {
    let t = &session.tally;
    output.text("end calls=").number(t.calls).text(" skipped=").number(t.skipped);
    output.text(" reports=").number(t.reports).end();
    t.reports != 0
}

fn main() {
    let words: Option<Vec<String>> = std::env::args_os().skip(1).map(|w| w.into_string().ok()).collect();
    let mut output = Output::new(standard(1));
    let ended = match words {
        Some(words) => work(&words, &mut output),
        None => Err(End::Usage),
    };
    let ended = match output.flush() {
        Ok(()) => ended,
        Err(_) => Err(End::Write),
    };
    let (status, line) = match ended {
        Ok(false) => (0, String::new()),
        Ok(true) => (1, String::new()),
        Err(End::Usage) => (2, "vkreplay: words not understood\n".to_owned()),
        Err(End::Stop(Stop::Fault(n, fault))) => (3, format!("vkreplay: line {n}: {fault:?}\n")),
        Err(End::Read) => (4, "vkreplay: read fault\n".to_owned()),
        Err(End::Write) => (5, "vkreplay: write fault\n".to_owned()),
        Err(End::Stop(Stop::Limit(which, n))) => (6, format!("vkreplay: limit {which} {n}\n")),
        Err(End::Manifests) => (6, "vkreplay: limit Manifests 4096\n".to_owned()),
    };
    let _ = std::io::stderr().write_all(line.as_bytes());
    std::process::exit(status);
}
