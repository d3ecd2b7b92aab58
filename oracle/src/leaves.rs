//! The leaves by themselves: offset steps, segments, texts.

use crate::answer::one;
use crate::chance::Chance;
use crate::request::Request;
use std::io;

type Emit<'a> = &'a mut dyn FnMut(&Request) -> io::Result<()>;

/// Where all steps are tried: each seed takes one place.
const PLACES: [u32; 6] = [0, u32::MAX, u32::MAX - 8_191, u32::MAX - 4_000, 1, u32::MAX - 32_768];
const EACH: u32 = 300;

pub fn all(chance: &Chance, seed: u64, emit: Emit) -> io::Result<()> {
    let place = PLACES[seed as usize % PLACES.len()];
    for letter in [b'b', b'i'] {
        emit(&Request { letter, a: place, times: 65_536, ..Request::default() })?;
        // a line without a number in front, so that two runs of numbers never touch
        emit(&Request { letter, a: place, c: chance.pair().into(), ..Request::default() })?;
    }
    for _ in 0..EACH {
        steps(chance, emit)?;
        texts(chance, emit)?;
    }
    Ok(())
}

/// An offset, often close to one of its ends.
fn offset(chance: &Chance) -> u32 {
    chance.pick(&[0, 1, u32::MAX, chance.below(70_000), u32::MAX - chance.below(70_000), chance.quad()])
}

fn steps(chance: &Chance, emit: Emit) -> io::Result<()> {
    let a = offset(chance);
    for letter in [b'i', b'b'] {
        let c = chance.pick(&[0, 1, 8, 9, 65_528, 65_529, 65_535, chance.pair().into()]);
        emit(&Request { letter, a, c, ..Request::default() })?;
    }
    let c = chance.pick(&[a, a.saturating_add(1), a.saturating_sub(1), offset(chance), offset(chance)]);
    emit(&Request { letter: b'u', a, c, ..Request::default() })
}

fn texts(chance: &Chance, emit: Emit) -> io::Result<()> {
    let a = offset(chance);
    let b = chance.pick(&[a, a.saturating_add(1), a.saturating_sub(1), offset(chance)]);
    let mut fmmus = vec![0; 14];
    let mut channels = vec![0; 21];
    chance.fill(&mut fmmus);
    chance.fill(&mut channels);
    // flags and bit fields are often 0; a byte by chance nearly never is
    for byte in fmmus[6..].iter_mut().chain(&mut channels[4..]) {
        *byte = chance.pick(&[0, 0, 0, 1, 7, *byte]);
    }
    for letter in [b's', b'f', b'y'] {
        let mut request =
            Request { letter, a, b, fmmus: fmmus.clone(), channels: channels.clone(), room: 512, ..Request::default() };
        request.room = room(chance, &request);
        emit(&request)?;
    }
    Ok(())
}

/// A room in which the text fits: just, or with some to spare.
fn room(chance: &Chance, request: &Request) -> u16 {
    let answer = one(request);
    let length: u16 = answer.split(' ').next().and_then(|word| word.parse().ok()).expect("a text begins with its length");
    chance.pick(&[length, length + 1, length + chance.below(40) as u16, 512])
}
