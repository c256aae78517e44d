//! `lyn_window` and `lyn_mark` against `enet_protocol_handle_send_unsequenced`.

use enet::{Bench, Verdict};

use crate::{clock::time, ours, random::Random, tally::Tally};

const CONNECTED: u32 = 5;
const DISCONNECT_LATER: u32 = 6;
const ODD_BASES: [u16; 9] = [1, 5, 511, 1023, 1025, 32767, 32769, 40000, 65535];

#[derive(Clone, Copy, Debug)]
struct Arrival {
    base: u16,
    words: [u32; 32],
    group: u16,
    room: bool,
    state: u32,
}

type Outcome = (u16, Vec<u32>, Verdict);

/// The link's order: judge, then store where there is room (state 6 stores nothing), then mark.
fn ours(a: &Arrival) -> Outcome {
    let mut buffer: [u8; 128] = ours::to_bytes(&a.words);
    let reply = ours::window(a.base, a.group, &mut buffer);
    let taken = reply >> 16 == 2;
    let verdict = match (taken, a.state, a.room) {
        (false, _, _) => Verdict::PassedOver,
        (true, DISCONNECT_LATER, _) => Verdict::PassedOver,
        (true, _, true) => Verdict::Delivered,
        (true, _, false) => Verdict::Refused,
    };
    if taken && verdict != Verdict::Refused {
        assert_eq!(ours::mark(a.group, &mut buffer), 0);
    }
    (reply as u16, ours::to_numbers(&buffer), verdict)
}

fn source(bench: &mut Bench, a: &Arrival) -> Outcome {
    let after = bench.unsequenced(a.base, a.words, a.group, a.room, a.state);
    (after.base, after.words.to_vec(), after.verdict)
}

/// None marked, all marked, only the group, all but the group.
fn marks(group: u16) -> [[u32; 32]; 4] {
    let index = usize::from(group % 1024);
    let mut only = [0; 32];
    only[index / 32] = 1 << (index % 32);
    [[0; 32], [u32::MAX; 32], only, only.map(|word| !word)]
}

fn edges() -> Vec<Arrival> {
    let bases = (0..64).map(|k| k * 1024).chain(ODD_BASES);
    let groups: Vec<u16> =
        (0..64u16).flat_map(|k| [0, 1, 31, 32, 511, 1022, 1023].map(|i| k * 1024 + i)).collect();
    let mut all = Vec::new();
    for base in bases {
        for &group in &groups {
            for words in marks(group) {
                for (room, state) in
                    [(true, CONNECTED), (false, CONNECTED), (true, DISCONNECT_LATER)]
                {
                    all.push(Arrival { base, words, group, room, state });
                }
            }
        }
    }
    all
}

fn arrival(random: &mut Random) -> Arrival {
    let base = random.number() as u16 & random.pick(&[0xfc00, 0xffff]);
    let near = base.wrapping_add(random.below(2048) as u16).wrapping_sub(1024);
    let group = if random.once_in(2) { near } else { random.number() as u16 };
    let density = random.pick(&[0, 1, u32::MAX]);
    let words = [0; 32].map(|_: u32| if density == 1 { random.number() } else { density });
    Arrival {
        base,
        words,
        group,
        room: !random.once_in(8),
        state: if random.once_in(8) { DISCONNECT_LATER } else { CONNECTED },
    }
}

pub fn compare(bench: &mut Bench, random: &mut Random, more: u64) -> u64 {
    let mut tally = Tally::default();
    for a in edges() {
        tally.compare(&a, ours(&a), source(bench, &a));
    }
    for _ in 0..more {
        let a = arrival(random);
        tally.compare(&a, ours(&a), source(bench, &a));
    }
    for length in [0, 1, 127, 129, 256] {
        let before = vec![7; length];
        let mut buffer = before.clone();
        let replies = (ours::window(0, 0, &mut buffer), ours::mark(0, &mut buffer));
        tally.compare(&length, (replies, buffer), ((11 << 24, 11), before));
    }
    let inputs: Vec<_> = (0..20_000).map(|_| arrival(random)).collect();
    let own = time(&inputs, ours);
    let theirs = time(&inputs, |a| source(bench, a));
    tally.close("window", own, theirs)
}
