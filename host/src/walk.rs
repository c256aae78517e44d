//! `lyn_walk` against `enet_protocol_check_timeouts`: runs of 0 to 40 sent commands, with 1 to 32 attempts each, as document
//! 01's domain has them. A run is lent in two parts, often the second of none, and each flag that is true as any byte but 0.

use enet::{Carried, Case, Left, Overdue, Sent};

use crate::{
    clock,
    random::Random,
    sent::{self, Awaiting, Limits, Numbers},
    tally::Tally,
};

const LONGEST: u64 = 40;
const ATTEMPTS: u64 = 32;
const DAY: u32 = 86_400_000;

/// About when a run was sent: at the clock's ends, a day from them, and in the middle.
const TIMES: [u32; 7] = [0, 1, 1_000, DAY, DAY.wrapping_neg(), 1 << 31, u32::MAX - 500];

/// Timeouts that are always due, that double to 0, and that double past 2^32.
const TIMEOUTS: [u32; 5] = [0, 1 << 31, (1 << 31) + 1, (1 << 31) - 1, u32::MAX];

#[derive(Debug, PartialEq)]
struct Outcome {
    left: Left,
    /// What the walk says beside the numbers: whether one was kept, one went back, the peer was given up.
    flags: [bool; 3],
    /// The packets' bytes as they came back, and how many flags came back as neither 0 nor 1.
    packets: Vec<u8>,
    odd: usize,
}

/// What a host lends beside the case: its packets' flags, and how many commands are in the first part.
#[derive(Debug)]
struct Bytes {
    packets: Vec<u8>,
    first: usize,
}

/// A flag as a host may lend it.
fn byte(random: &mut Random, flag: bool) -> u8 {
    if flag {
        1 + random.below(255) as u8
    } else {
        0
    }
}

fn command(random: &mut Random, around: u32) -> Sent {
    let most = random.pick(&[4, 4, ATTEMPTS]);
    Sent {
        time: if random.once_in(16) {
            random.number()
        } else {
            around.wrapping_add(random.below(1_000) as u32)
        },
        timeout: if random.once_in(8) {
            random.pick(&TIMEOUTS)
        } else {
            random.below(1_500) as u32
        },
        attempts: 1 + random.below(most) as u16,
        length: random.number() as u16,
        packet: random.once_in(2),
    }
}

/// When some command comes due, just not yet or long since; a day and half of all after it was sent, where the distance is
/// the greatest; or at any time.
fn clock(random: &mut Random, sent: &[Sent], around: u32) -> u32 {
    if sent.is_empty() {
        return random.number();
    }
    let command = random.pick(sent);
    let due = command.time.wrapping_add(command.timeout);
    match random.below(8) {
        0 => random.number(),
        1 => command.time.wrapping_add(random.pick(&[DAY - 1, DAY, DAY + 1, 1 << 31])),
        2 => around.wrapping_sub(random.below(1_000) as u32),
        3 => around.wrapping_add(random.below(3_000) as u32),
        4 => around.wrapping_add(random.below(200) as u32),
        _ => due.wrapping_add(random.pick(&[0, 0, 1, 500, 2_000, 30_000, u32::MAX])),
    }
}

fn case(random: &mut Random) -> Case {
    let around = if random.once_in(4) { random.number() } else { random.pick(&TIMES) };
    let count = random.below(LONGEST + 1);
    let sent: Vec<_> = (0..count).map(|_| command(random, around)).collect();
    let clock = clock(random, &sent, around);
    let far = around.wrapping_sub(DAY);
    let earliest = match random.below(8) {
        0 => random.number(),
        1..=3 => random.pick(&[around, around.wrapping_add(500), far, far.wrapping_sub(1), clock]),
        _ => 0,
    };
    let apart = clock.wrapping_sub(around);
    Case {
        sent,
        waiting: [0; 2].map(|_: usize| random.below(3) as usize),
        carried: Carried {
            earliest,
            next: random.number(),
            lost: random.up_to(u32::MAX),
            transit: random.up_to(u32::MAX),
        },
        limit: random.pick(&[0, 1, 4, 8, 32, 1 << 31, u32::MAX]),
        minimum: random.pick(&[0, 1_200, 5_000, apart, u32::MAX, u32::MAX]),
        maximum: random.pick(&[2_000, 30_000, apart, u32::MAX, u32::MAX, u32::MAX]),
        clock,
    }
}

fn bytes(random: &mut Random, case: &Case) -> Bytes {
    let count = case.sent.len();
    Bytes {
        packets: case.sent.iter().map(|sent| byte(random, sent.packet)).collect(),
        first: if random.once_in(2) { count } else { random.below(count as u64 + 1) as usize },
    }
}

/// The run of a case, with a mark that the walk never makes.
fn run(case: &Case, packet: impl Fn(usize) -> u8) -> Vec<Awaiting> {
    let awaiting = |(place, sent): (usize, &Sent)| {
        let Sent { time, timeout, attempts, length, .. } = *sent;
        Awaiting { sent: time, timeout, attempts, length, packet: packet(place), mark: 7 }
    };
    case.sent.iter().enumerate().map(awaiting).collect()
}

fn start(case: &Case) -> Numbers {
    let Carried { earliest, next, lost, transit } = case.carried;
    let (kept, back, over) = (0, 0, 0);
    Numbers { earliest, next, lost, transit, kept, back, over }
}

fn walk(case: &Case, run: &mut [Awaiting], numbers: Numbers) -> Numbers {
    let Case { limit, minimum, maximum, clock, .. } = *case;
    sent::walk(run, Limits { ping: 500, timeout: limit, minimum, maximum }, clock, numbers)
}

/// Both parts of a run; the flags that come back from the first are lent to the second as any bytes.
fn walked(
    random: &mut Random,
    case: &Case,
    run: &mut [Awaiting],
    first: usize,
) -> (Numbers, usize) {
    let (first, second) = run.split_at_mut(first);
    let halfway = walk(case, first, start(case));
    let [kept, back, over] = flags(&halfway).map(|flag| byte(random, flag != 0));
    let end = walk(case, second, Numbers { kept, back, over, ..halfway });
    let odd = [halfway, end].iter().flat_map(flags).filter(|flag| *flag > 1).count();
    (end, odd)
}

fn flags(numbers: &Numbers) -> [u8; 3] {
    [numbers.kept, numbers.back, numbers.over]
}

/// A host moves what is marked before what waits in its list, in the run's order.
fn ours(random: &mut Random, case: &Case, bytes: &Bytes) -> Outcome {
    let mut run = run(case, |place| bytes.packets[place]);
    let (numbers, odd) = walked(random, case, &mut run, bytes.first);
    let Numbers { earliest, next, lost, transit, .. } = numbers;
    let marked = |mark| (0..run.len()).filter(|place| run[*place].mark == mark).collect::<Vec<_>>();
    let command = |a: &Awaiting| {
        let Awaiting { sent, timeout, attempts, length, packet, .. } = *a;
        Sent { time: sent, timeout, attempts, length, packet: packet != 0 }
    };
    let mut left = Left {
        carried: Carried { earliest, next, lost, transit },
        commands: run.iter().map(command).collect(),
        sent: marked(0),
        outgoing: marked(1),
        send_reliable: marked(2),
    };
    let [others, reliable] = case.waiting;
    let waiting = run.len()..run.len() + others;
    left.send_reliable.extend(waiting.end..waiting.end + reliable);
    left.outgoing.extend(waiting);
    let packets = run.iter().map(|a| a.packet).collect();
    Outcome { left, flags: flags(&numbers).map(|flag| flag != 0), packets, odd }
}

/// The source has no word for the first two flags: they are read off its lists. The packets' bytes stay as they were lent.
fn source(overdue: &mut Overdue, case: &Case, bytes: &Bytes) -> Outcome {
    overdue.load(case);
    let over = overdue.check();
    let left = overdue.left();
    let (kept, back) = (!left.sent.is_empty(), left.sent.len() < case.sent.len());
    Outcome { left, flags: [kept, back, over], packets: bytes.packets.clone(), odd: 0 }
}

pub fn compare(random: &mut Random, more: u64) -> u64 {
    let (mut tally, mut overdue) = (Tally::default(), Overdue::default());
    let (mut some_back, mut given_up, mut both) = (0_u64, 0_u64, 0_u64);
    for _ in 0..more {
        let case = case(random);
        let bytes = bytes(random, &case);
        let theirs = source(&mut overdue, &case, &bytes);
        let [_, back, over] = theirs.flags;
        some_back += u64::from(back);
        given_up += u64::from(over);
        both += u64::from(back && over);
        tally.compare(&(&case, &bytes), ours(random, &case, &bytes), theirs);
    }
    println!("walk: some went back in {some_back} calls, given up in {given_up}, both in {both}");
    let cases: Vec<_> = (0..20_000).map(|_| case(random)).collect();
    let own = timed(
        &cases,
        |case, place: &mut Vec<Awaiting>| *place = run(case, |at| case.sent[at].packet.into()),
        |case, run| walk(case, run, start(case)).over != 0,
    );
    let theirs =
        timed(&cases, |case, place: &mut Overdue| place.load(case), |_, overdue| overdue.check());
    tally.close("walk", own, theirs)
}

/// Nanoseconds of a call alone. A few cases are laid out at a time, outside the clock, whose own time is taken off.
fn timed<P: Default>(
    cases: &[Case],
    lay_out: impl Fn(&Case, &mut P),
    call: impl Fn(&Case, &mut P) -> bool,
) -> f64 {
    const FEW: [usize; 4] = [0, 1, 2, 3];
    let mut places = FEW.map(|_| P::default());
    let turns = |few: &mut dyn FnMut(&[Case]) -> f64| {
        let few = cases.chunks_exact(FEW.len()).map(few);
        few.sum::<f64>() / (cases.len() / FEW.len()) as f64
    };
    let all = clock::least(|| {
        turns(&mut |few| {
            for (case, place) in few.iter().zip(&mut places) {
                lay_out(case, place);
            }
            clock::time(&FEW, |at| call(&few[*at], &mut places[*at]))
        })
    });
    all - clock::least(|| turns(&mut |_| clock::time(&FEW, |_| false)))
}
