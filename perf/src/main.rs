//! Compares the proved library with a plain core and a plain assembler: first that both answer the same, then how fast.

mod assembler;
mod core;
mod inputs;
mod plain;
mod proved;

use inputs::Random;
use std::time::Instant;

const ROUNDS: usize = 15;

/// Assembles by both, and sees that the answers and the buffers are the same.
fn same_assembly(listing: &[u8], room: usize) -> proved::Assembly {
    let mut ours = vec![0xA5; room];
    let mut plain = ours.clone();
    let answer = proved::assemble(listing, &mut ours);
    assert_eq!(answer, plain::assemble(listing, &mut plain), "the answers differ at {listing:02X?}");
    assert!(ours == plain, "the images differ at {listing:02X?}");
    answer
}

/// Plays by both, and sees that the answers and the memories are the same.
fn same_playing(memory: &[u8], image: &[u8], text: u16, lo: u16, hi: u16, actions: &[u8]) -> proved::Playing {
    let mut ours = memory.to_vec();
    let mut plain = memory.to_vec();
    let answer = proved::play(&mut ours, image, text, lo, hi, actions);
    let other = plain::play(&mut plain, image, text, lo, hi, actions);
    assert_eq!(answer, other, "the answers differ at {image:02X?} {text} {lo} {hi} {actions:02X?}");
    assert!(ours == plain, "the memories differ at {image:02X?} {text} {lo} {hi} {actions:02X?}");
    answer
}

fn compare_assemblers(random: &mut Random) {
    let mut seen = [0u32; 14];
    for k in 0..20_000 {
        let size = if k % 100 == 0 { 4200 } else { 1 + k % 60 };
        let lines = if k % 100 == 50 { inputs::long_listing(random) } else { inputs::listing(random, size) };
        let mut bytes = inputs::pack(&lines);
        if k % 2 == 1 {
            inputs::damage(random, &mut bytes);
        }
        let room = if random.one_in(8) { random.below(600) as usize } else { 65280 + random.below(300) as usize };
        seen[same_assembly(&bytes, room).refusal as usize] += 1;
    }
    println!("20000 listings assembled alike: {} accepted; refused by number {:?}", seen[0], &seen[1..]);
}

fn compare_cores(random: &mut Random) {
    let mut steps = [0u64; 3];
    let mut loads = [0u32; 16];
    let mut seen = [0u32; 27];
    for k in 0..20_000u64 {
        let mut image = vec![0; 65280];
        let (mut text, size) = if k % 2 == 0 {
            let listing = inputs::pack(&inputs::program(random));
            let answer = same_assembly(&listing, image.len());
            (answer.text as u16, answer.image)
        } else {
            let bytes = {
                let count = 16 + random.below(112);
                inputs::words(random, count)
            };
            image[..bytes.len()].copy_from_slice(&bytes);
            (bytes.len() as u16 / 16 * 16, bytes.len())
        };
        image.truncate(size);
        let mut lo = 2 + 2 * random.below(8) as u16;
        let mut hi = 18 + 2 * random.below(16) as u16;
        if k % 4 == 0 {
            (lo, hi) = (16, 32);
        }
        if random.one_in(16) {
            text = random.next() as u16;
            lo = random.below(20) as u16;
            hi = random.next() as u16;
        }
        let room = if random.one_in(8) { random.below(70_000) as usize } else { 65536 + random.below(64) as usize };
        let fill = random.next() as u8;
        let memory = vec![fill; room];
        let count = random.below(60);
        let actions = inputs::actions(random, count, 200);
        let answer = same_playing(&memory, &image, text, lo, hi, &actions);
        loads[answer.loading as usize] += 1;
        seen[answer.last.number as usize] += 1;
        steps[0] += answer.own;
        steps[1] += answer.service;
        steps[2] += answer.takings;
    }
    let [own, service, takings] = steps;
    println!("20000 lists of actions played alike: {own} own steps, {service} service steps, {takings} takings");
    println!(
        "  loads refused: {} plan, {} closed; last action refused by number 16 to 26: {:?}",
        loads[14],
        loads[15],
        &seen[16..]
    );
}

/// The best and the median time of each side in nanoseconds a unit, measured in turns.
fn race(units: u64, mut ours: impl FnMut(), mut plain: impl FnMut()) -> [(f64, f64); 2] {
    let mut times = [Vec::new(), Vec::new()];
    for _ in 0..ROUNDS {
        let start = Instant::now();
        ours();
        times[0].push(start.elapsed().as_nanos() as f64 / units as f64);
        let start = Instant::now();
        plain();
        times[1].push(start.elapsed().as_nanos() as f64 / units as f64);
    }
    times.map(|mut side| {
        side.sort_by(f64::total_cmp);
        (side[0], side[ROUNDS / 2])
    })
}

fn print_race(name: &str, [ours, plain]: [(f64, f64); 2]) {
    println!(
        "{name:34} {:9.2} {:9.2} {:7.2} {:9.2} {:9.2} {:7.2}",
        ours.0,
        plain.0,
        ours.0 / plain.0,
        ours.1,
        plain.1,
        ours.1 / plain.1
    );
}

fn race_cores(name: &str, lines: &[inputs::Line], hi: u16, actions: &[u8]) {
    let mut image = vec![0; 65280];
    let answer = same_assembly(&inputs::pack(lines), image.len());
    assert_eq!(answer.refusal, 0);
    proved::assemble(&inputs::pack(lines), &mut image);
    image.truncate(answer.image);
    let text = answer.text as u16;
    let memory = vec![0; 65536];
    let playing = same_playing(&memory, &image, text, 16, hi, actions);
    assert_eq!(playing.last.number, 0, "{playing:?}");
    let steps = playing.own + playing.service + playing.takings;
    let (mut first, mut second) = (memory.clone(), memory);
    let times = race(
        steps,
        || {
            std::hint::black_box(proved::play(&mut first, &image, text, 16, hi, std::hint::black_box(actions)));
        },
        || {
            std::hint::black_box(plain::play(&mut second, &image, text, 16, hi, std::hint::black_box(actions)));
        },
    );
    print_race(name, times);
}

fn race_assemblers(count: usize) {
    let listing = inputs::pack(&inputs::accepted_listing(count));
    let answer = same_assembly(&listing, 65280);
    assert_eq!(answer.refusal, 0, "{answer:?}");
    let repeats = 400_000 / count;
    let (mut first, mut second) = (vec![0; 65280], vec![0; 65280]);
    let times = race(
        (repeats * count) as u64,
        || {
            for _ in 0..repeats {
                std::hint::black_box(proved::assemble(std::hint::black_box(&listing), &mut first));
            }
        },
        || {
            for _ in 0..repeats {
                std::hint::black_box(plain::assemble(std::hint::black_box(&listing), &mut second));
            }
        },
    );
    print_race(&format!("a record, of {count}"), times);
}

fn main() {
    let mut random = Random::new(2026);
    compare_assemblers(&mut random);
    compare_cores(&mut random);

    println!("\nnanoseconds, over {ROUNDS} rounds in turns:  best                        median");
    println!("{:34} {:>9} {:>9} {:>7} {:>9} {:>9} {:>7}", "", "proved", "plain", "ratio", "proved", "plain", "ratio");
    let run = [2, 0xFF, 0xFF];
    race_cores("a step, tight loop", &inputs::tight_loop(), 18, &run.repeat(60));
    let asked = [[0, 0, 0], [2, 0, 60]].concat();
    race_cores("a step, loads, stores, requests", &inputs::busy_loop(), 32, &asked.repeat(60_000));
    for count in [512, 1024, 2048, 4096] {
        race_assemblers(count);
    }
}
