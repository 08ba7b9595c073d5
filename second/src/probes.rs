//! Cases for the probe: sound benches at every place with fields at and around their limits, the same with one field spoiled,
//! garbage, and turns one after the other.

use crate::bench::{Bench, Claim, Halves, Offer, Record};
use crate::probe::{line, numbers_of, BENCH, RECORD, STATIONS};
use crate::random::Random;

const PLACES: [u32; 10] = [0, 11, 12, 13, 14, 15, 16, 18, 19, 20];
const COUNTS: [u32; 6] = [0, 1, 2, 65_533, 65_534, 65_535];
const VALUES: [u32; 5] = [0, 1, 7, u32::MAX - 1, u32::MAX];
const VERSIONS: [u32; 6] = [0, 2, 1_000, 4_294_967_286, 4_294_967_288, 4_294_967_290];
/// What a spoiled field becomes, and what garbage is made of.
const ODD_ONES: [u32; 18] = [
    0,
    1,
    2,
    3,
    4,
    6,
    7,
    9,
    31,
    32,
    33,
    65_535,
    65_536,
    4_294_967_292,
    4_294_967_293,
    4_294_967_294,
    u32::MAX,
    131_072,
];

/// After so many cases a bench that runs on is taken anew.
pub const ANEW: u64 = 120;

/// So many cases, a line each.
pub fn probes(seed: u64, count: u64) -> String {
    cases(seed, 0, count).iter().map(|case| line(case) + "\n").collect()
}

/// The cases of a seed from a multiple of `ANEW` on. Every field of a sound bench is spoiled in turn, in four ways: all of
/// them in 12,816 cases.
pub fn cases(seed: u64, from: u64, to: u64) -> Vec<Vec<u32>> {
    let mut running: Option<Bench> = None;
    let case = |at: u64| {
        let random = &mut Random::new(seed << 32 ^ at);
        match (at % 6, spoils(at)) {
            (_, Some(field)) => spoiled(random, field, at / 6 / BENCH as u64),
            (0 | 1, _) => {
                let bench = sound(random);
                with_turn(random, &bench)
            }
            (2 | 3, _) => running_on(random, &mut running, at),
            _ => garbage(random),
        }
    };
    (from..to).map(case).collect()
}

/// The field that this case spoils.
pub fn spoils(at: u64) -> Option<usize> {
    (at % 6 == 4).then_some((at / 6) as usize % BENCH)
}

/// A sound bench, most of whose stations stand somewhere in a call. Its versions, counts and values are
/// few, so that those of different stations meet.
pub fn sound(random: &mut Random) -> Bench {
    let any = random.between(2, 32) as u32;
    let n = random.pick(&[1, 2, 3, 31, 32, any]);
    let version = random.pick(&VERSIONS);
    let count = random.pick(&COUNTS);
    let mut bench = Bench::fresh(n, random.pick(&VALUES));
    bench.v.0 = version + random.pick(&[0, 2, 4]);
    let (seq, pid) = (some_seq(random, version), some_pid(random, n));
    bench.p = Claim { seq, pid, c: near_count(random, count) };
    for at in 0..=n as usize {
        bench.a[at] = Halves(near_count(random, count), random.pick(&VALUES));
        bench.r[at] = Halves(near_count(random, count), random.below(2) as u32);
    }
    for at in 1..=n as usize {
        bench.stations[at] = station(random, n, version, count);
    }
    bench
}

fn near_count(random: &mut Random, count: u32) -> u32 {
    random.pick(&[count, count, count.min(65_534) + 1, count.saturating_sub(1)])
}

fn some_pid(random: &mut Random, n: u32) -> u32 {
    let any = random.between(1, n as usize) as u32;
    random.pick(&[0, 1, n, any, any])
}

/// A saved version, even or odd; at most 4,294,967,295.
fn some_seq(random: &mut Random, version: u32) -> u32 {
    version + random.pick(&[0, 1, 2, 2, 3, 4, 4, 5])
}

fn station(random: &mut Random, n: u32, version: u32, count: u32) -> Record {
    let (place, c) = (random.pick(&PLACES), near_count(random, count));
    if place == 0 {
        return Record { c, ..Record::default() };
    }
    let a = random.pick(&VALUES);
    let b = a.wrapping_add(random.pick(&[1, 6, u32::MAX]));
    let s = (version + random.pick(&[0, 2])).min(4_294_967_292);
    let own = match place {
        11..=16 => place - 10,
        18 | 19 => place - 11,
        _ => random.pick(&[7, 9]),
    };
    let mut record = Record { place, kind: random.pick(&[1, 2]), a, b, s, own, c, ..Record::default() };
    if place == 11 {
        record.c = c.min(65_534);
    }
    if place > 15 {
        (record.seq, record.pid) = (some_seq(random, version), some_pid(random, n));
        record.cp = near_count(random, count);
    }
    if place > 16 {
        (record.ca, record.val) = (near_count(random, count), random.pick(&VALUES));
    }
    if matches!(place, 18 | 19) {
        (record.seq, record.cp) = (record.seq & !1, record.ca);
    }
    record
}

/// A turn of any station, seldom of none, with an offer that is mostly good.
fn with_turn(random: &mut Random, bench: &Bench) -> Vec<u32> {
    let (station, offer) = some_turn(random, bench);
    let mut numbers = numbers_of(bench);
    numbers.extend([station, offer.kind, offer.a, offer.b]);
    numbers
}

fn some_turn(random: &mut Random, bench: &Bench) -> (u32, Offer) {
    let n = bench.n.clamp(1, 32);
    let odd = random.pick(&[0, n + 1, 33, 256, 65_536, u32::MAX]);
    let station = if random.once_in(16) { odd } else { random.between(1, n as usize) as u32 };
    let stands = bench.v.1;
    let (a, b) = (random.pick(&[stands, stands, stands, 5]), random.pick(&VALUES));
    let offer = match random.below(12) {
        0 => Offer { kind: 3, a: 0, b: 0 },
        1 => Offer { kind: 0, a: 0, b: 0 },
        2 => Offer { kind: random.pick(&[0, 3]), a: random.pick(&[0, 1]), b: random.pick(&[0, 1, u32::MAX]) },
        3 => Offer { kind: random.pick(&[4, 5, 255, 256, 65_537, u32::MAX]), a: random.pick(&[0, a]), b: 0 },
        4 => Offer { kind: random.pick(&[1, 2]), a, b: a },
        _ => Offer { kind: random.pick(&[1, 2]), a, b },
    };
    (station, offer)
}

/// The next turn of a bench that is carried from case to case, taken anew now and then.
fn running_on(random: &mut Random, running: &mut Option<Bench>, at: u64) -> Vec<u32> {
    let again = at % ANEW < 3 || running.is_none();
    let mut bench = match running.take() {
        Some(bench) if !again => bench,
        _ if random.once_in(2) => Bench::fresh(random.between(1, 4) as u32, random.pick(&VALUES)),
        _ => sound(random),
    };
    let (station, offer) = some_turn(random, &bench);
    let mut numbers = numbers_of(&bench);
    numbers.extend([station, offer.kind, offer.a, offer.b]);
    bench.turn(station, offer);
    *running = Some(bench);
    numbers
}

/// This field of a bench is a station's place.
fn is_place(field: usize) -> bool {
    field >= STATIONS && (field - STATIONS).is_multiple_of(RECORD)
}

/// A sound bench with this field changed: by one, to the other side of its limit, to a large number, or to any.
/// A place stays one of the ten.
fn spoiled(random: &mut Random, field: usize, way: u64) -> Vec<u32> {
    let bench = sound(random);
    let mut numbers = with_turn(random, &bench);
    let old = numbers[field];
    numbers[field] = match way % 4 {
        _ if is_place(field) => random.pick(&PLACES),
        0 => random.pick(&[old.wrapping_add(1), old.wrapping_sub(1)]),
        1 => other_side(random, &numbers, field),
        2 => random.pick(&[1 << 31, u32::MAX - 1, u32::MAX, old ^ 1 << 16, old ^ 1 << 31]),
        _ => random.pick(&ODD_ONES),
    };
    numbers
}

/// A number at the other side of a field's limit, where it has one.
fn other_side(random: &mut Random, numbers: &[u32], field: usize) -> u32 {
    let (n, old) = (numbers[0], numbers[field]);
    if field >= STATIONS {
        return match (field - STATIONS) % RECORD {
            1 => random.pick(&[0, 3]),
            2 => numbers[field + 1],
            3 => numbers[field - 1],
            4 => random.pick(&[old | 1, 4_294_967_293, 4_294_967_294]),
            5 => random.pick(&[old.wrapping_add(1), old.wrapping_sub(1), 8, 10]),
            6 => random.pick(&[65_535, 65_536]),
            8 => n + 1,
            9 | 10 => random.pick(&[old ^ 1, 65_536]),
            _ => old ^ 1,
        };
    }
    match field {
        0 => random.pick(&[0, 33]),
        1 => old | 1,
        2 | 3 => u32::MAX,
        4 => n + 1,
        5 => 65_536,
        _ if field % 4 == 3 => 1,
        _ if field % 4 == 1 => 2,
        _ => 65_536,
    }
}

/// Numbers of any kind; the places are places, for else nothing would be tried.
fn garbage(random: &mut Random) -> Vec<u32> {
    let mut numbers = numbers_of(&Bench::fresh(random.pick(&[0, 1, 2, 31, 32, 33, 256, u32::MAX]), 0));
    let often = random.pick(&[1, 4, 40, 400]);
    for (field, number) in numbers.iter_mut().enumerate().skip(1) {
        if random.once_in(often) {
            let any = random.next() as u32;
            let odd = random.pick(&ODD_ONES);
            *number = if is_place(field) { random.pick(&PLACES) } else { random.pick(&[any, odd]) };
        }
    }
    let (station, kind) = (random.pick(&ODD_ONES), random.pick(&[0, 1, 2, 3, 4, u32::MAX]));
    numbers.extend([station, kind, random.pick(&ODD_ONES), random.pick(&VALUES)]);
    numbers
}
