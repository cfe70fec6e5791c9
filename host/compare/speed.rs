//! How long the library takes beside the code by hand: same inputs, in turns, the best round of each.

use crate::feed::{self, NUMBERS};
use crate::library;
use crate::random::{Random, Summary, Update};
use std::hint::black_box;
use std::time::Instant;

const ROUNDS: usize = 1000;
const FRAMES: usize = 200;
const BIDS: usize = 20_000;

/// The best times of two jobs in nanoseconds for each of `items`, run in turns on the same buffer.
fn best(items: usize, library: impl Fn(&mut [u8]) -> u64, by_hand: impl Fn(&mut [u8]) -> u64) -> (f64, f64) {
    let mut buffer = vec![0; 1500];
    let mut times = (f64::MAX, f64::MAX);
    for _ in 0..ROUNDS {
        let began = Instant::now();
        let first = black_box(library(&mut buffer));
        let middle = Instant::now();
        let second = black_box(by_hand(&mut buffer));
        let ended = Instant::now();
        assert_eq!(first, second, "the two jobs did not do the same");
        times.0 = times.0.min((middle - began).as_nanos() as f64 / items as f64);
        times.1 = times.1.min((ended - middle).as_nanos() as f64 / items as f64);
    }
    times
}

fn say(what: &str, unit: &str, (library, by_hand): (f64, f64)) {
    println!(
        "speed, {what}: library {library:.2} ns a {unit}, by hand {by_hand:.2} ns: {:.2} : 1",
        library / by_hand
    );
}

/// Reads every message of the frames, and adds up what is told. The numbers are not cleared between calls.
fn read_all(frames: &[Vec<u8>], read: impl Fn(&[u8], u64, u8, &mut [u64]) -> u32) -> u64 {
    let mut sum = 0u64;
    for frame in frames {
        let mut numbers = [0; NUMBERS];
        loop {
            let kind = read(frame, numbers[0], numbers[1] as u8, &mut numbers);
            sum = sum
                .wrapping_add(numbers[7])
                .wrapping_add(numbers[5])
                .wrapping_add(kind.into());
            if kind == 0 || kind == 4 {
                break;
            }
        }
    }
    sum
}

/// Fills the buffer with frames of the same messages. It is not cleared between frames.
fn write_all(
    buffer: &mut [u8],
    messages: &[(Update, Summary)],
    start: impl Fn(&mut [u8]) -> u32,
    update: impl Fn(&mut [u8], &Update) -> u32,
    summary: impl Fn(&mut [u8], &Summary) -> u32,
) -> u64 {
    let mut sum = u64::from(start(buffer));
    for (u, s) in messages {
        let refused = update(buffer, u) + summary(buffer, s);
        if refused != 0 {
            sum = sum
                .wrapping_mul(31)
                .wrapping_add(buffer[40].into())
                .wrapping_add(refused.into());
            start(buffer);
        }
    }
    sum
}

pub fn measure(random: &mut Random) {
    let messages: Vec<(Update, Summary)> = (0..16 * FRAMES)
        .map(|_| {
            let (symbol, auction) = (random.symbol(), random.auction());
            (random.update(&symbol, auction), random.summary(&symbol, auction))
        })
        .collect();
    let frames: Vec<Vec<u8>> = messages
        .chunks(16)
        .map(|part| {
            let mut buffer = vec![0; 1500];
            feed::start(&mut buffer);
            for (u, s) in part {
                u.add(&mut buffer, feed::add_update);
                s.add(&mut buffer, feed::add_summary);
            }
            buffer.truncate(feed::frame_size(&buffer) as usize);
            buffer
        })
        .collect();
    let count: usize = frames.iter().map(|frame| usize::from(frame[2])).sum();
    let times = best(count, |_| read_all(&frames, library::read), |_| read_all(&frames, feed::read));
    say("reading frames of 32 messages", "message", times);

    let times = best(
        2 * messages.len(),
        |buffer| {
            write_all(
                buffer,
                &messages,
                library::start,
                |b, u| u.add(b, library::add_update),
                |b, s| s.add(b, library::add_summary),
            )
        },
        |buffer| {
            write_all(
                buffer,
                &messages,
                feed::start,
                |b, u| u.add(b, feed::add_update),
                |b, s| s.add(b, feed::add_summary),
            )
        },
    );
    say("writing frames in 1,500 bytes", "message", times);

    let bids: Vec<u64> = (0..BIDS).map(|_| random.below(3_000_000) as u64).collect();
    let times = best(
        BIDS,
        |_| bids.iter().map(|bid| library::width(*bid)).sum(),
        |_| bids.iter().map(|bid| feed::width(*bid)).sum(),
    );
    say("widths of bids under $300", "bid", times);
}
