//! Listings, images and lists of actions: random ones for the comparison, fixed ones for the measurements.

/// A small generator of random numbers (splitmix64), so that every run has the same inputs.
pub struct Random(u64);

impl Random {
    pub fn new(seed: u64) -> Self {
        Random(seed)
    }

    pub fn next(&mut self) -> u64 {
        self.0 = self.0.wrapping_add(0x9E37_79B9_7F4A_7C15);
        let mut z = self.0;
        z = (z ^ z >> 30).wrapping_mul(0xBF58_476D_1CE4_E5B9);
        z = (z ^ z >> 27).wrapping_mul(0x94D0_49BB_1331_11EB);
        z ^ z >> 31
    }

    pub fn below(&mut self, n: u64) -> u64 {
        self.next() % n
    }

    pub fn one_in(&mut self, n: u64) -> bool {
        self.below(n) == 0
    }

    pub fn pick<T: Copy>(&mut self, items: &[T]) -> T {
        items[self.below(items.len() as u64) as usize]
    }
}

/// A record before it is packed.
#[derive(Clone, Copy, Default)]
pub struct Line {
    pub operation: u32,
    pub rd: u32,
    pub ra: u32,
    pub rb: u32,
    pub label: Option<u32>,
    pub constant: i32,
}

pub fn line(operation: u32, rd: u32, ra: u32, rb: u32, constant: i32) -> Line {
    Line { operation, rd, ra, rb, label: None, constant }
}

pub fn reference(operation: u32, rd: u32, ra: u32, label: u32) -> Line {
    Line { operation, rd, ra, label: Some(label), ..Line::default() }
}

pub fn label(number: u32) -> Line {
    Line { operation: LABEL, label: Some(number), ..Line::default() }
}

pub fn pack(lines: &[Line]) -> Vec<u8> {
    let mut bytes = Vec::with_capacity(8 * lines.len());
    for line in lines {
        let refers = line.label.is_some() && line.operation != LABEL;
        let head = line.operation << 25
            | line.rd << 21
            | line.ra << 17
            | line.rb << 13
            | (refers as u32) << 12
            | line.label.unwrap_or(0);
        bytes.extend_from_slice(&head.to_be_bytes());
        bytes.extend_from_slice(&line.constant.to_be_bytes());
    }
    bytes
}

pub const ADD: u32 = 0;
pub const ADDI: u32 = 2;
pub const XOR: u32 = 5;
pub const LW: u32 = 20;
pub const LB: u32 = 21;
pub const SW: u32 = 22;
pub const SB: u32 = 23;
pub const BR: u32 = 32;
pub const BNE: u32 = 35;
pub const CMP: u32 = 48;
pub const J: u32 = 50;
pub const RETI: u32 = 56;
pub const DATA: u32 = 65;
pub const WORD: u32 = 67;
pub const ALIGN: u32 = 68;
pub const LABEL: u32 = 69;

/// A register that the program may name, mostly.
fn register(random: &mut Random) -> u32 {
    match random.below(200) {
        0 => 14,
        n => [0, 1, 2, 3, 4, 5, 6, 7, 8, 9, 10, 11, 12, 13, 15][(n % 15) as usize],
    }
}

fn constant(random: &mut Random) -> i32 {
    match random.below(6) {
        0 => random.below(98304) as i32 - 32768,
        1 => random.pick(&[-32768, -9, -8, -1, 0, 7, 8, 15, 16, 30, 31, 32, 65535]),
        _ => random.below(24) as i32 - 8,
    }
}

/// A line that keeps the rules of its operation; a line that refers to a label may add a constant to it.
fn instruction(random: &mut Random, labels: u64) -> Line {
    let mut line = plain_instruction(random, labels);
    if line.label.is_some() && random.one_in(16) {
        line.constant = constant(random);
    }
    line
}

/// A line that keeps the rules of its operation; what it refers to is one of `labels` labels.
fn plain_instruction(random: &mut Random, labels: u64) -> Line {
    let (rd, ra, rb) = (register(random), register(random), register(random));
    let label = random.below(labels) as u32;
    match random.below(24) {
        0..=3 => line(random.below(2) as u32, rd, ra, rb, 0),
        4..=5 => line(3 + random.below(4) as u32, rd, 0, rb, 0),
        6 => line(7 + random.below(2) as u32, rd, 0, rb, 0),
        7..=9 => line(random.pick(&[ADDI, 51, 58]), rd, ra, 0, constant(random)),
        10 => line(9 + random.below(6) as u32, rd, 0, 0, constant(random)),
        11 => line(15 + random.below(3) as u32, rd, 0, 0, 1 + random.below(15) as i32),
        12 => line(18 + random.below(2) as u32, rd, 0, 0, 1),
        13..=15 => {
            let operation = random.pick(&[LW, LB, SW, SB, 52]);
            match random.below(3) {
                0 => reference(operation, rd, 0, label),
                1 => line(operation, rd, 0, 0, 0x4000 + random.below(64) as i32 * 2),
                _ => line(operation, rd, ra, 0, constant(random)),
            }
        }
        16..=18 => reference(random.pick(&[32, 34, 35, 36, 37, 38, 39, 40, 41, 42, 43, 44, 45, 46, 47]), 0, 0, label),
        19 => line(random.pick(&[48, 49]), 0, ra, 0, 0),
        20 => line(random.pick(&[54, 57, 59]), rd, ra, 0, 0),
        21 => reference(random.pick(&[24, 50, ADDI, 51, 9, 25]), 0, 0, label),
        22 => line(random.pick(&[53, 55, 53]), 0, 0, 0, 0),
        _ => line(random.pick(&[49, 48]), 0, ra, 0, 0),
    }
}

/// A listing of about `size` records, most of which the assembler accepts.
pub fn listing(random: &mut Random, size: u64) -> Vec<Line> {
    let labels = 1 + random.below(1 + size / 8);
    let mut lines = Vec::new();
    let mut next = 0;
    let mut in_data = false;
    while (lines.len() as u64) < size {
        match random.below(32) {
            0..=3 if next < labels => {
                lines.push(label(next as u32));
                next += 1;
            }
            4 => {
                in_data = !in_data;
                lines.push(line(if in_data { DATA } else { 64 }, 0, 0, 0, 0));
            }
            5 => lines.push(line(66, 0, 0, 0, random.below(384) as i32 - 128)),
            6 => lines.push(line(ALIGN, 0, 0, 0, 1 << random.below(5))),
            7 => {
                lines.push(line(ALIGN, 0, 0, 0, 2));
                lines.push(if random.one_in(2) {
                    line(WORD, 0, 0, 0, constant(random))
                } else {
                    reference(WORD, 0, 0, random.below(labels) as u32)
                });
            }
            _ if in_data => lines.push(line(ALIGN, 0, 0, 0, 2)),
            _ => lines.push(instruction(random, labels)),
        }
    }
    while next < labels && !random.one_in(50) {
        lines.push(label(next as u32));
        next += 1;
    }
    lines
}

/// A listing whose image may be longer than an image can be: shifts by many.
pub fn long_listing(random: &mut Random) -> Vec<Line> {
    let count = 2000 + random.below(400);
    (0..count).map(|_| line(15 + random.below(3) as u32, 1, 0, 0, 14 + random.below(2) as i32)).collect()
}

/// Damages a packed listing: bits, whole fields, lengths, or records put elsewhere.
pub fn damage(random: &mut Random, bytes: &mut Vec<u8>) {
    for _ in 0..1 + random.below(3) {
        if bytes.is_empty() {
            return;
        }
        let at = random.below(bytes.len() as u64) as usize;
        match random.below(6) {
            0 => bytes[at] ^= 1 << random.below(8),
            1 => bytes[at] = random.next() as u8,
            2 => bytes[at / 8 * 8] = random.next() as u8,
            3 if random.one_in(4) => bytes.truncate(at),
            4 => {
                let from = random.below(bytes.len() as u64 / 8 + 1) as usize * 8;
                if let Some(record) = bytes.get(from..from + 8).map(<[u8]>::to_vec) {
                    let to = at / 8 * 8;
                    bytes.splice(to..to, record);
                }
            }
            _ => bytes[at] = bytes[at].wrapping_add(1),
        }
    }
}

/// A program with a service: a jump over the service routine, then a body that goes round and round.
pub fn program(random: &mut Random) -> Vec<Line> {
    let labels = 2 + random.below(6);
    let mut lines = vec![reference(J, 0, 0, 0), line(ALIGN, 0, 0, 0, 16)];
    for _ in 0..random.below(4) {
        lines.push(match random.below(8) {
            0 => instruction(random, labels),
            1 => line(SW, 14, 0, 0, 0x18),
            2 => line(SB, 3, 0, 0, 0x11 + random.below(30) as i32),
            3 => line(ADDI, register(random), register(random), 0, random.below(2) as i32),
            _ => line(53, 0, 0, 0, 0),
        });
    }
    lines.push(line(RETI, 0, 0, 0, 0));
    lines.push(line(ALIGN, 0, 0, 0, 16));
    lines.push(label(0));
    let body = 4 + random.below(24);
    for k in 0..body {
        if k * (labels - 1) / body + 1 > (lines.iter().filter(|l| l.operation == LABEL).count() as u64) - 1 {
            let number = lines.iter().filter(|l| l.operation == LABEL).count() as u32;
            lines.push(label(number));
        }
        let next = match random.below(12) {
            0 => line(SW, register(random), 0, 0, 0x4000 + random.below(64) as i32 * 2),
            1 => line(SB, register(random), 0, 0, 0x4000 + random.below(128) as i32),
            2 => line(random.pick(&[LW, LB]), register(random), 0, 0, 0x4000 + random.below(64) as i32 * 2),
            3 => {
                lines.push(line(CMP, 0, register(random), 0, 0));
                reference(random.pick(&[34, 35, 36, 37, 40, 43, 44, 47]), 0, 0, random.below(labels) as u32)
            }
            4 => line(15 + random.below(3) as u32, register(random), 0, 0, 1 + random.below(2) as i32),
            5 => line(random.pick(&[3, 4, 5, 6]), register(random), 0, register(random), 0),
            6 if random.one_in(4) => instruction(random, labels),
            _ => line(ADDI, register(random), register(random), 0, random.below(16) as i32 - 8),
        };
        lines.push(next);
    }
    lines.push(reference(BR, 0, 0, 0));
    let named = lines.iter().filter(|l| l.operation == LABEL).count() as u32;
    for number in named..labels as u32 {
        lines.push(label(number));
    }
    lines
}

/// Random words, most of which are known.
pub fn words(random: &mut Random, count: u64) -> Vec<u8> {
    let mut bytes = Vec::new();
    for _ in 0..count {
        let mut word = random.next() as u16;
        if !random.one_in(8) {
            let opcode = random.pick(&[0u16, 1, 2, 2, 2, 3, 4, 5, 6, 8, 9, 0xA, 0xB, 0xD]);
            word = opcode << 12 | word & 0xFFF;
            if opcode == 3 {
                word &= 0xFF5F;
            }
        }
        bytes.extend_from_slice(&word.to_be_bytes());
    }
    bytes
}

/// Requests, steps and runs.
pub fn actions(random: &mut Random, count: u64, most: u64) -> Vec<u8> {
    let mut bytes = Vec::new();
    for _ in 0..count {
        let budget = (random.below(most + 1) as u16).to_be_bytes();
        let kind = match random.below(20) {
            0..=5 => 0,
            6..=12 => 1,
            19 => random.next() as u8,
            _ => 2,
        };
        bytes.extend_from_slice(&[kind, budget[0], budget[1]]);
    }
    if random.one_in(8) {
        bytes.truncate(bytes.len().saturating_sub(1 + random.below(2) as usize));
    }
    bytes
}

/// A loop of sums and a branch.
pub fn tight_loop() -> Vec<Line> {
    vec![
        reference(J, 0, 0, 0),
        line(ALIGN, 0, 0, 0, 16),
        line(RETI, 0, 0, 0, 0),
        label(0),
        line(ADDI, 1, 1, 0, 1),
        line(ADD, 2, 2, 3, 0),
        line(XOR, 4, 0, 2, 0),
        line(ADDI, 5, 4, 0, -3),
        line(CMP, 0, 1, 6, 0),
        reference(BNE, 0, 0, 0),
        reference(BR, 0, 0, 0),
    ]
}

/// A loop of loads and stores, and a service that stores, loads and gives back what it used.
pub fn busy_loop() -> Vec<Line> {
    vec![
        reference(J, 0, 0, 0),
        line(ALIGN, 0, 0, 0, 16),
        line(SW, 1, 0, 0, 30),
        line(ADDI, 1, 1, 0, 5),
        line(LW, 1, 0, 0, 30),
        line(RETI, 0, 0, 0, 0),
        line(ALIGN, 0, 0, 0, 16),
        label(0),
        line(LW, 1, 7, 0, 0x4000),
        line(ADDI, 2, 1, 0, 1),
        line(LB, 3, 7, 0, 0x4011),
        line(SW, 2, 7, 0, 0x4000),
        line(SB, 3, 7, 0, 0x4021),
        line(ADDI, 7, 7, 0, 2),
        line(9, 7, 0, 0, 0xFE),
        reference(BR, 0, 0, 0),
    ]
}

/// A listing of exactly `count` records that the assembler accepts, with the usual mixture of operations.
pub fn accepted_listing(count: usize) -> Vec<Line> {
    let mut random = Random::new(7);
    let mut lines = Vec::with_capacity(count);
    let mut labels = 0;
    while lines.len() < count {
        if lines.len() % 16 == 0 && labels < 1024 {
            lines.push(label(labels));
            labels += 1;
            continue;
        }
        let (rd, ra, rb) = (1 + random.below(13) as u32, random.below(14) as u32, random.below(14) as u32);
        lines.push(match random.below(12) {
            0..=1 => line(ADD, rd, ra, rb, 0),
            2 => line(1, rd, ra, rb, 0),
            3..=4 => line(ADDI, rd, ra, 0, random.below(64) as i32 - 16),
            5 => line(XOR, rd, 0, rb, 0),
            6 => line(LW, rd, ra, 0, random.below(40) as i32 * 2),
            7 => line(SW, rd, ra, 0, random.below(40) as i32 * 2),
            8 => line(17, rd, 0, 0, 1 + random.below(3) as i32),
            9 => reference(51, rd, 0, labels - 1),
            10 => line(CMP, 0, ra, rb, 0),
            _ => reference(BNE, 0, 0, labels - 1),
        });
    }
    lines
}
