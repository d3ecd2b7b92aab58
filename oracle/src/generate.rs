//! Writes requests with the oracle's answers: the leaves first, then plans. Each call of a plan is asked keeping old entries, which is what the
//! text does, and in the default unless that may be refused with 15; with its outputs at a given offset and straight after the inputs.

use crate::answer::{self, one, outcome, said};
use crate::call::{Made, Outcome};
use crate::chance::Chance;
use crate::leaves;
use crate::old;
use crate::plans::{Plan, Step};
use crate::register::Areas;
use crate::request::{AFTER_INPUTS, KEEPING, Request};
use std::io::{self, Write};

/// Calls in which the text failed: in the inputs alone, in the outputs alone, in both where each is made by itself; and those among them
/// in which it had changed a register by then.
#[derive(Default)]
struct Failures {
    inputs: u64,
    outputs: u64,
    both: u64,
    written: u64,
}

pub fn all(seed: u64, plans: u64, requests: &mut impl Write, answers: &mut impl Write) -> io::Result<()> {
    let chance = Chance::new(seed);
    let mut failures = Failures::default();
    leaves::all(&chance, seed, &mut |request| {
        request.write(requests)?;
        answer::write(request, answers)
    })?;
    for _ in 0..plans {
        let plan = Plan::new(&chance);
        follow(&plan, &mut failures, &mut |request, answer| {
            request.write(requests)?;
            writeln!(answers, "{answer}")
        })?;
    }
    requests.flush()?;
    answers.flush()?;
    println!("inputs {} outputs {} both {} written {}", failures.inputs, failures.outputs, failures.both, failures.written);
    Ok(())
}

/// Where a plan stands.
struct State {
    inputs: u32,
    outputs: u32,
    areas: Areas,
}

/// Makes a plan's steps, each over what the one before left. A failed call leaves everything as it came; what the text had written by
/// then is only counted.
fn follow(plan: &Plan, failures: &mut Failures, emit: &mut impl FnMut(&Request, &str) -> io::Result<()>) -> io::Result<()> {
    let mut state = State { inputs: plan.inputs, outputs: plan.outputs, areas: plan.areas.clone() };
    for step in &plan.steps {
        match step {
            Step::Mailboxes => {
                let (sheet, channels) = (plan.sheet.bytes(), state.areas.channels.to_vec());
                let request = Request { letter: b'm', sheet, channels, ..Request::default() };
                let answer = one(&request);
                emit(&request, &answer)?;
                if let Some(channels) = answer.strip_prefix("ok ").and_then(|words| words.split(' ').next_back()) {
                    state.areas.channels = bytes(channels);
                }
            }
            Step::Call(goes_on) => {
                let mut next = None;
                for how in ways(plan, &state.areas) {
                    let request = ask(plan, how, &state);
                    let outcome = outcome(&request).expect("a plan's calls have a counterpart");
                    emit(&request, &said(&outcome))?;
                    failures.count(&outcome);
                    if let (true, Outcome::Made(made)) = (how == *goes_on, outcome) {
                        next = Some(made);
                    }
                }
                if let Some(Made { inputs, outputs, areas }) = next {
                    state = State { inputs: inputs.next, outputs: outputs.next, areas };
                }
            }
        }
    }
    Ok(())
}

impl Failures {
    fn count(&mut self, outcome: &Outcome) {
        if let Outcome::Fails { inputs, outputs, written } = outcome {
            self.inputs += u64::from(*inputs && !outputs);
            self.outputs += u64::from(*outputs && !inputs);
            self.both += u64::from(*inputs && *outputs);
            self.written += u64::from(*written);
        }
    }
}

/// The ways in which a call is asked for.
fn ways(plan: &Plan, areas: &Areas) -> Vec<u8> {
    let mut ways = vec![KEEPING, KEEPING | AFTER_INPUTS];
    if old::nothing_in_the_way(&plan.sheet, &areas.fmmus) {
        ways.extend([0, AFTER_INPUTS]);
    }
    ways
}

fn ask(plan: &Plan, how: u8, state: &State) -> Request {
    Request {
        letter: b'p',
        how,
        a: state.inputs,
        b: plan.group,
        c: state.outputs,
        sheet: plan.sheet.bytes(),
        table: plan.table.clone(),
        fmmus: state.areas.fmmus.to_vec(),
        channels: state.areas.channels.to_vec(),
        ..Request::default()
    }
}

fn bytes<const N: usize>(digits: &str) -> [u8; N] {
    std::array::from_fn(|at| u8::from_str_radix(&digits[2 * at..2 * at + 2], 16).expect("two digits for each byte"))
}
