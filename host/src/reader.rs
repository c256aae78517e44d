//! `lyn_read` against the head of the loop in `enet_protocol_handle_incoming_commands`.

use enet::Bench;

use crate::{clock::time, ours, random::Random, tally::Tally};

/// Size, kind and row of the command at a place, or the refusal.
type Outcome = Result<Vec<u32>, u32>;

const NUMBERS: usize = 18;

fn ours(bytes: &[u8], place: usize) -> Outcome {
    let mut buffer = [0; 4 * NUMBERS];
    match ours::read(bytes, place, &mut buffer) {
        0 => Ok(ours::to_numbers(&buffer)),
        refusal => Err(refusal),
    }
}

fn source(bench: &mut Bench, bytes: &[u8], place: usize) -> Outcome {
    let read = bench.read(bytes, place).ok_or(9u32)?;
    let size = (read.next - place) as u32;
    let byte = u32::from(read.byte);
    let mut numbers = vec![size, byte % 16, byte, read.channel.into(), read.number.into()];
    numbers.extend(read.fields);
    numbers.resize(NUMBERS, 0);
    Ok(numbers)
}

/// Bytes that often begin with a command of a wanted byte at the place.
fn input(random: &mut Random) -> (Vec<u8>, usize) {
    let length = random.below(120) as usize;
    let bytes = random.bytes(length);
    let place = match random.below(10) {
        0 => length,
        1 => usize::MAX - random.below(60) as usize,
        _ => random.below(length as u64 + 2) as usize,
    };
    (bytes, place)
}

pub fn compare(bench: &mut Bench, random: &mut Random, more: u64) -> u64 {
    let mut tally = Tally::default();
    for byte in 0..=255u8 {
        for length in 0..=52 {
            for place in [0, 1, 7] {
                let mut bytes = random.bytes(place + length);
                if length > 0 {
                    bytes[place] = byte;
                }
                tally.compare(&(&bytes, place), ours(&bytes, place), source(bench, &bytes, place));
            }
        }
    }
    for _ in 0..more {
        let (bytes, place) = input(random);
        tally.compare(&(&bytes, place), ours(&bytes, place), source(bench, &bytes, place));
    }
    for length in [0, 1, 71, 73, 128] {
        let before = vec![7; length];
        let mut buffer = before.clone();
        let reply = ours::read(&[5, 0, 0, 0], 0, &mut buffer);
        tally.compare(&length, (reply, buffer), (11, before));
    }
    let mut refused = [7; 72];
    let reply = ours::read(&[0, 0, 0, 0], 0, &mut refused);
    tally.compare(&"refused", (reply, refused), (9, [7; 72]));

    let inputs: Vec<_> = (0..20_000).map(|_| input(random)).collect();
    let own = time(&inputs, |(bytes, place)| ours(bytes, *place));
    let theirs = time(&inputs, |(bytes, place)| source(bench, bytes, *place));
    tally.close("reader", own, theirs)
}
