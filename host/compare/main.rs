//! Calls the library and the code by hand on the same inputs, compares every answer and every byte and number of
//! every buffer, and then measures how long each takes. An argument says how many rounds of inputs to compare.

mod feed;
mod library;
mod random;
mod speed;

use feed::{EDGES, NUMBERS};
use random::Random;
use std::fmt::Debug;

#[derive(Default)]
struct Tally {
    calls: u64,
    differences: u64,
    kinds: [u64; 6],
    faults: [u64; 5],
    refusals: [u64; 2],
}

impl Tally {
    fn compare<T: PartialEq + Debug>(&mut self, what: &str, input: &dyn Debug, library: T, by_hand: T) {
        self.calls += 1;
        if library != by_hand {
            self.differences += 1;
            if self.differences <= 5 {
                println!("DIFFERENCE in {what} of {input:?}\n  library {library:?}\n  by hand {by_hand:?}");
            }
        }
    }

    fn read(&mut self, frame: &[u8], place: u64, left: u8, numbers: &[u64]) -> (u32, Vec<u64>) {
        let (mut ours, mut theirs) = (numbers.to_vec(), numbers.to_vec());
        let kind = library::read(frame, place, left, &mut ours);
        let other = feed::read(frame, place, left, &mut theirs);
        self.kinds[other as usize] += 1;
        if other == 4 {
            self.faults[(theirs[16] - 30) as usize] += 1;
        }
        self.compare("read", &(frame, place, left, numbers), (kind, &ours), (other, &theirs));
        (other, theirs)
    }

    fn answer(&mut self, what: &str, input: &dyn Debug, library: (u32, &[u8]), by_hand: (u32, &[u8])) {
        if by_hand.0 != 0 {
            self.refusals[(by_hand.0 - 35) as usize] += 1;
        }
        self.compare(what, input, library, by_hand);
    }
}

/// A whole frame as a C loop reads it, a call more after its last answer, and calls at places and counts of any kind.
fn compare_reading(random: &mut Random, tally: &mut Tally, frame: &[u8]) {
    let places = NUMBERS + random.below(4);
    let mut numbers: Vec<u64> = (0..places).map(|_| random.number()).collect();
    let (mut place, mut left) = (0, random.byte());
    loop {
        let (kind, told) = tally.read(frame, place, left, &numbers);
        (place, left) = (told[0], told[1] as u8);
        numbers = told;
        if kind == 0 || kind == 4 {
            tally.read(frame, place, left, &numbers);
            break;
        }
    }
    let few: Vec<u64> = (0..random.below(NUMBERS)).map(|i| i as u64).collect();
    tally.read(frame, 0, 0, &few);
    for _ in 0..4 {
        let place = match random.below(4) {
            0 => random.sized(),
            1 => (frame.len() as u64 + random.below(3) as u64).wrapping_sub(1),
            _ => random.below(frame.len() + 1) as u64,
        };
        let left = if random.one_in(3) { 0 } else { random.byte() };
        tally.read(frame, place, left, &numbers);
    }
}

fn symbol_of(random: &mut Random) -> Vec<u8> {
    match random.below(12) {
        0 => {
            let size = random.below(12);
            vec![b'A'; size]
        }
        1 => random.bytes(8),
        _ => random.symbol().to_vec(),
    }
}

fn auction_of(random: &mut Random) -> u8 {
    if random.one_in(20) { random.byte() } else { random.auction() }
}

/// A buffer that is begun or not, and messages added to it until some are refused.
fn compare_writing(random: &mut Random, tally: &mut Tally) {
    let size = if random.one_in(3) {
        random.below(40)
    } else {
        random.below(1700)
    };
    let mut ours = random.bytes(size);
    if random.one_in(4) {
        ours.fill(0);
    }
    if random.one_in(4) {
        let near = [
            7,
            8,
            9,
            1435,
            1436,
            1437,
            1472,
            1473,
            1474,
            1500,
            size as u16,
            (size as u16).wrapping_sub(27),
        ][random.below(12)];
        for (b, n) in ours.iter_mut().zip(near.to_le_bytes()) {
            *b = n;
        }
        if size > 2 && random.one_in(2) {
            ours[2] = 250 + random.below(6) as u8;
        }
    }
    let mut theirs = ours.clone();
    let begins = random.one_in(2);
    let start = random.below(3);
    for step in 0..random.below(40) {
        if begins && step == start {
            let before = ours.clone();
            let answers = (library::start(&mut ours), feed::start(&mut theirs));
            tally.answer("start", &before, (answers.0, &ours), (answers.1, &theirs));
        }
        let symbol = symbol_of(random);
        let auction = auction_of(random);
        let before = ours.clone();
        let answers = if random.one_in(2) {
            let u = random.update(&symbol, auction);
            (u.add(&mut ours, library::add_update), u.add(&mut theirs, feed::add_update))
        } else {
            let s = random.summary(&symbol, auction);
            (s.add(&mut ours, library::add_summary), s.add(&mut theirs, feed::add_summary))
        };
        tally.answer("add", &(&before, &symbol, auction), (answers.0, &ours), (answers.1, &theirs));
        let sizes = (library::frame_size(&ours), feed::frame_size(&theirs));
        tally.compare("frame_size", &ours, sizes.0, sizes.1);
    }
    let size = feed::frame_size(&theirs) as usize;
    compare_reading(random, tally, &theirs[..size]);
}

fn compare_widths(random: &mut Random, tally: &mut Tally) {
    for _ in 0..64 {
        let near = EDGES[random.below(EDGES.len())]
            .wrapping_add(random.below(400) as u64)
            .wrapping_sub(200);
        for bid in [near, random.sized(), random.below(3_000_000) as u64] {
            tally.compare("width", &bid, library::width(bid), feed::width(bid));
        }
    }
}

fn main() {
    let rounds = std::env::args()
        .nth(1)
        .map_or(400_000, |n| n.parse().expect("the argument is a number of rounds"));
    let mut random = Random::new(20);
    let mut tally = Tally::default();
    for edge in EDGES {
        for bid in edge.saturating_sub(3)..=edge + 3 {
            tally.compare("width", &bid, library::width(bid), feed::width(bid));
        }
    }
    tally.compare("width", &u64::MAX, library::width(u64::MAX), feed::width(u64::MAX));
    for _ in 0..rounds {
        let frame = random.frame();
        compare_reading(&mut random, &mut tally, &frame);
        compare_writing(&mut random, &mut tally);
        compare_widths(&mut random, &mut tally);
    }
    let [end, update, summary, unknown, fault, few] = tally.kinds;
    println!(
        "read: {end} ends, {update} updates, {summary} summaries, {unknown} unknown messages, {fault} faults (30 to 34: {:?}), {few} with too few places",
        tally.faults
    );
    println!("written: {} refused by 35, {} by 36", tally.refusals[0], tally.refusals[1]);
    speed::measure(&mut random);
    println!("compared {} calls, {} differences", tally.calls, tally.differences);
    std::process::exit(if tally.differences == 0 { 0 } else { 1 });
}
