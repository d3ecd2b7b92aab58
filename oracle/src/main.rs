//! The oracle: the text of ethercrab 0.7.1, compiled unchanged from the folder that TUGMERANT_CRATE_TEXT names, over
//! stand-ins for what that text leans on. README.md says what the stand-ins decide, and so is no evidence.
//!
//!     oracle answer < REQUESTS > ANSWERS
//!     oracle generate SEED PLANS REQUESTS-FILE ANSWERS-FILE

use std::fs::File;
use std::io::{self, BufReader, BufWriter, Write};
use std::process::ExitCode;

mod answer;
mod call;
mod chance;
mod generate;
mod leaves;
mod old;
mod plans;
mod request;
mod run;
mod sheet;

// the stand-ins, by the names under which the text looks for them
mod eeprom;
mod stand_ins;
mod subdevice;
mod wire;
use stand_ins::{SubIndex, error, fmt, mailbox, register, subdevice_state};

// the text; subdevice.rs has the rest of it
#[allow(unused)]
mod pdi {
    include!(concat!(env!("TUGMERANT_CRATE_TEXT"), "/src/pdi.rs.txt"));
}
#[allow(unused)]
mod fmmu {
    include!(concat!(env!("TUGMERANT_CRATE_TEXT"), "/src/fmmu.rs.txt"));
}
#[allow(unused)]
mod sync_manager_channel {
    include!(concat!(env!("TUGMERANT_CRATE_TEXT"), "/src/sync_manager_channel.rs.txt"));
}

fn answer_all() -> io::Result<()> {
    let mut requests = BufReader::new(io::stdin().lock());
    let mut answers = BufWriter::new(io::stdout().lock());
    while let Some(request) = request::Request::read(&mut requests)? {
        answer::write(&request, &mut answers)?;
    }
    answers.flush()
}

fn number(word: &str) -> io::Result<u64> {
    word.parse().map_err(|_| io::Error::other(format!("not a number: {word}")))
}

fn main() -> ExitCode {
    run::hush();
    let words: Vec<String> = std::env::args().skip(1).collect();
    let words: Vec<&str> = words.iter().map(String::as_str).collect();
    let done = match words[..] {
        ["answer"] => answer_all(),
        ["generate", seed, plans, requests, answers] => (|| {
            let out = |name| File::create(name).map(BufWriter::new);
            generate::all(number(seed)?, number(plans)?, &mut out(requests)?, &mut out(answers)?)
        })(),
        _ => Err(io::Error::other("oracle answer | oracle generate SEED PLANS REQUESTS-FILE ANSWERS-FILE")),
    };
    match done {
        Ok(()) => ExitCode::SUCCESS,
        Err(reason) => {
            eprintln!("oracle: {reason}");
            ExitCode::FAILURE
        }
    }
}
