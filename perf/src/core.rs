//! A plain xr16 core over flat memory, written from docs/CORE.md and docs/WORDS.md. Nothing of it is proved.

/// Byte memory over a lent buffer: an address beyond the buffer reads 0xFF and takes no store.
pub struct Memory<'a> {
    bytes: &'a mut [u8],
}

impl<'a> Memory<'a> {
    pub fn new(bytes: &'a mut [u8]) -> Self {
        Memory { bytes }
    }

    fn read(&self, address: u16) -> u8 {
        self.bytes.get(address as usize).copied().unwrap_or(0xFF)
    }

    fn is_open(&self, address: u16) -> bool {
        (address as usize) < self.bytes.len()
    }

    fn store(&mut self, address: u16, value: u8) {
        if let Some(byte) = self.bytes.get_mut(address as usize) {
            *byte = value;
        }
    }

    fn read_word(&self, address: u16) -> u16 {
        u16::from_be_bytes([self.read(address), self.read(address.wrapping_add(1))])
    }

    fn store_word(&mut self, address: u16, value: u16) {
        let [high, low] = value.to_be_bytes();
        self.store(address, high);
        self.store(address.wrapping_add(1), low);
    }
}

#[derive(Clone, Copy, Debug, PartialEq, Eq)]
pub enum Side {
    Own,
    Service,
}

#[derive(Clone, Copy, Debug, PartialEq, Eq)]
pub enum Step {
    Taken(u16),
    Made(Side),
}

#[derive(Clone, Copy, Debug, PartialEq, Eq)]
pub struct StepRefusal {
    pub number: u8,
    pub address: u16,
    pub side: Side,
}

#[derive(Clone, Copy, Debug, Default, PartialEq, Eq)]
pub struct Tally {
    pub own: u16,
    pub service: u16,
    pub takings: u16,
    pub wait: u16,
}

/// What the last word left for the next one.
#[derive(Clone, Copy)]
enum Forerunner {
    Nothing,
    Sum { a: u16, b: u16, carry: bool },
    Shift { bit: bool },
}

pub struct Core {
    counter: u16,
    registers: [u16; 16],
    prefix: Option<u16>,
    forerunner: Forerunner,
    last_own: u8,
    last_service: u8,
    pending: Option<u16>,
    interruptible: bool,
    copies: Option<[u16; 16]>,
    text: u16,
    low: u16,
    high: u16,
}

/// The four fields of a word.
struct Word {
    opcode: u8,
    rd: u8,
    ra: u8,
    rb: u8,
}

impl Word {
    fn new(word: u16) -> Self {
        Word { opcode: (word >> 12) as u8, rd: (word >> 8 & 15) as u8, ra: (word >> 4 & 15) as u8, rb: (word & 15) as u8 }
    }

    fn is_known(&self) -> bool {
        match self.opcode {
            0x3 => self.ra <= 5,
            0x4 => self.ra <= 10,
            0xB => self.rd != 1,
            0x7 | 0xE | 0xF => false,
            _ => true,
        }
    }

    fn names(&self, register: u8) -> bool {
        match self.opcode {
            0x0 | 0x1 => self.rd == register || self.ra == register || self.rb == register,
            0x2 | 0x5 | 0x6 | 0x8 | 0x9 | 0xA => self.rd == register || self.ra == register,
            0x3 => self.rd == register || self.rb == register,
            0x4 => self.rd == register,
            _ => false,
        }
    }

    /// The register that is read late, or 0.
    fn late(&self) -> u8 {
        match self.opcode {
            0x0 | 0x1 | 0x3 => self.rb,
            0x8 | 0x9 => self.rd,
            _ => 0,
        }
    }

    /// The register that is written, or 0.
    fn result(&self) -> u8 {
        match self.opcode {
            0x0..=0x6 | 0xA => self.rd,
            0xC => 15,
            _ => 0,
        }
    }

    fn is_interlocked(&self) -> bool {
        match self.opcode {
            0x0..=0x2 | 0xD => true,
            0x3 | 0x4 => self.ra == 4 || self.ra == 5,
            _ => false,
        }
    }

    fn low_bits(&self) -> u16 {
        (self.rd as u16) << 8 | (self.ra as u16) << 4 | self.rb as u16
    }

    fn immediate(&self, prefix: Option<u16>) -> u16 {
        let field = self.rb as u16;
        match (prefix, self.opcode) {
            (Some(prefix), _) => prefix << 4 | field,
            (None, 0x2 | 0x4) => ((field << 12) as i16 >> 12) as u16,
            (None, 0x6 | 0x9) => field,
            (None, _) => (field & 1) << 4 | field & 14,
        }
    }
}

fn sum(a: u16, b: u16, carry: bool) -> (u16, Forerunner) {
    let total = a as u32 + b as u32 + carry as u32;
    let left = Forerunner::Sum { a, b, carry: total > 0xFFFF };
    (total as u16, left)
}

fn difference(a: u16, b: u16, borrow: bool) -> (u16, Forerunner) {
    let value = a.wrapping_sub(b).wrapping_sub(borrow as u16);
    let left = Forerunner::Sum { a, b: b.wrapping_neg(), carry: (a as u32) < b as u32 + borrow as u32 };
    (value, left)
}

fn holds(condition: u8, a: u16, b: u16) -> bool {
    let other = b.wrapping_neg();
    let yes = match condition & 14 {
        0x0 => return true,
        0x2 => a == other,
        0x4 => a.checked_add(b).is_none(),
        0x6 => (a as i16).checked_add(b as i16).is_none(),
        0x8 => (a as i16) < other as i16,
        0xA => a as i16 <= other as i16,
        0xC => a < other,
        _ => a <= other,
    };
    yes == (condition & 1 == 0)
}

impl Core {
    pub fn new() -> Self {
        Core {
            counter: 0,
            registers: [0; 16],
            prefix: None,
            forerunner: Forerunner::Nothing,
            last_own: 0,
            last_service: 0,
            pending: None,
            interruptible: false,
            copies: None,
            text: 0,
            low: 0,
            high: 0,
        }
    }

    pub fn counter(&self) -> u16 {
        self.counter
    }

    pub fn registers(&self) -> &[u16; 16] {
        &self.registers
    }

    pub fn owing(&self) -> u8 {
        match &self.copies {
            None => 0,
            Some(copies) => (1..16).filter(|&k| self.registers[k] != copies[k]).count() as u8,
        }
    }

    pub fn load(&mut self, memory: &mut Memory, image: &[u8], text: u16, lo: u16, hi: u16) -> Result<(), u8> {
        let fits = text % 16 == 0
            && text as usize <= image.len()
            && image.len() <= 65280
            && lo % 2 == 0
            && hi % 2 == 0
            && (2..=16).contains(&lo)
            && 18 <= hi
            && hi <= text;
        if !fits {
            return Err(14);
        }
        if !(0..image.len()).all(|address| memory.is_open(address as u16)) {
            return Err(15);
        }
        for (address, &byte) in image.iter().enumerate() {
            memory.store(address as u16, byte);
        }
        *self = Core { text, low: lo, high: hi, ..Core::new() };
        Ok(())
    }

    pub fn request(&mut self) -> Result<(), u8> {
        if self.copies.is_some() || self.pending.is_some() {
            return Err(16);
        }
        self.pending = Some(0);
        Ok(())
    }

    pub fn step(&mut self, memory: &mut Memory) -> Result<Step, StepRefusal> {
        let side = match self.copies {
            None => Side::Own,
            Some(_) => Side::Service,
        };
        if let (Side::Own, Some(wait), true) = (side, self.pending, self.interruptible) {
            self.take();
            return Ok(Step::Taken(wait));
        }
        match self.run_word(memory, side) {
            Ok(()) => Ok(Step::Made(side)),
            Err(number) => Err(StepRefusal { number, address: self.counter, side }),
        }
    }

    pub fn run(&mut self, memory: &mut Memory, budget: u16) -> (Tally, Option<StepRefusal>) {
        let mut tally = Tally::default();
        for _ in 0..budget {
            match self.step(memory) {
                Ok(Step::Taken(wait)) => {
                    tally.takings += 1;
                    tally.wait = wait;
                }
                Ok(Step::Made(Side::Own)) => tally.own += 1,
                Ok(Step::Made(Side::Service)) => tally.service += 1,
                Err(refusal) => return (tally, Some(refusal)),
            }
        }
        (tally, None)
    }

    fn take(&mut self) {
        self.registers[14] = self.counter;
        self.counter = 0x0010;
        self.copies = Some(self.registers);
        self.pending = None;
        self.forerunner = Forerunner::Nothing;
        self.last_service = 14;
    }

    fn in_range(&self, address: u16) -> bool {
        self.low <= address && address < self.high
    }

    fn check_load(&self, side: Side, address: u16, is_word: bool) -> Result<(), u8> {
        if is_word && address % 2 == 1 {
            Err(23)
        } else if address >= 0xFF00 {
            Err(24)
        } else if side == Side::Own && self.in_range(address) {
            Err(25)
        } else {
            Ok(())
        }
    }

    fn check_store(&self, side: Side, address: u16, is_word: bool) -> Result<(), u8> {
        let trespasses = match side {
            Side::Own => address < self.text || self.in_range(address),
            Side::Service => !self.in_range(address),
        };
        if is_word && address % 2 == 1 {
            Err(23)
        } else if address >= 0xFF00 {
            Err(24)
        } else if trespasses {
            Err(25)
        } else {
            Ok(())
        }
    }

    /// Runs the word at the counter, or answers the number of the first check that it fails.
    fn run_word(&mut self, memory: &mut Memory, side: Side) -> Result<(), u8> {
        let in_range = self.in_range(self.counter);
        let placed = match side {
            Side::Own => self.counter < self.text && !in_range,
            Side::Service => in_range,
        };
        if !placed {
            return Err(17);
        }
        let bits = memory.read_word(self.counter);
        let word = Word::new(bits);
        if !word.is_known() {
            return Err(18);
        }
        if side == Side::Own && word.names(14) {
            return Err(19);
        }
        let last = match side {
            Side::Own => self.last_own,
            Side::Service => self.last_service,
        };
        if word.late() != 0 && word.late() == last {
            return Err(20);
        }

        let (rd, ra, rb) = (word.rd as usize, word.ra as usize, word.rb as usize);
        let immediate = word.immediate(self.prefix);
        let next = self.counter.wrapping_add(2);
        let mut counter = next;
        let mut value = 0;
        let mut prefix = None;
        let mut forerunner = Forerunner::Nothing;
        let mut closes = false;
        match word.opcode {
            0x0 => (value, forerunner) = sum(self.registers[ra], self.registers[rb], false),
            0x1 => (value, forerunner) = difference(self.registers[ra], self.registers[rb], false),
            0x2 => (value, forerunner) = sum(self.registers[ra], immediate, false),
            0x3 | 0x4 => {
                let left = self.registers[rd];
                let right = if word.opcode == 0x3 { self.registers[rb] } else { immediate };
                match word.ra {
                    0 => value = left & right,
                    1 => value = left | right,
                    2 => value = left ^ right,
                    3 => value = left & !right,
                    4 | 5 => {
                        let Forerunner::Sum { carry, .. } = self.forerunner else {
                            return Err(21);
                        };
                        (value, forerunner) = match word.ra {
                            4 => sum(left, right, carry),
                            _ => difference(left, right, carry),
                        };
                    }
                    shift => {
                        let moved_in = match (shift, self.forerunner) {
                            (9 | 10, Forerunner::Shift { bit }) => bit as u16,
                            (9 | 10, _) => return Err(21),
                            _ => 0,
                        };
                        if immediate != 1 {
                            return Err(22);
                        }
                        value = match shift {
                            6 => left >> 1,
                            7 => (left as i16 >> 1) as u16,
                            9 => left >> 1 | moved_in << 15,
                            _ => left << 1 | moved_in,
                        };
                        let bit = match shift {
                            6 | 7 | 9 => left & 1 == 1,
                            _ => left >> 15 == 1,
                        };
                        forerunner = Forerunner::Shift { bit };
                    }
                }
            }
            0x5 | 0x6 => {
                let address = self.registers[ra].wrapping_add(immediate);
                let is_word = word.opcode == 0x5;
                self.check_load(side, address, is_word)?;
                value = if is_word { memory.read_word(address) } else { memory.read(address) as u16 };
            }
            0x8 | 0x9 => {
                let address = self.registers[ra].wrapping_add(immediate);
                let is_word = word.opcode == 0x8;
                self.check_store(side, address, is_word)?;
                if is_word {
                    memory.store_word(address, self.registers[rd]);
                } else {
                    memory.store(address, self.registers[rd] as u8);
                }
            }
            0xA => {
                closes = side == Side::Service && bits == 0xA0E0 && self.prefix.is_none();
                if closes && self.owing() > 0 {
                    return Err(26);
                }
                value = next;
                counter = self.registers[ra].wrapping_add(immediate) & !1;
            }
            0xB => {
                let taken = match (word.rd, self.forerunner, self.prefix) {
                    (0, _, _) => true,
                    (condition, Forerunner::Sum { a, b, .. }, None) => holds(condition, a, b),
                    _ => return Err(21),
                };
                if taken {
                    let displacement = bits as i8 as u16;
                    counter = self.counter.wrapping_add(4).wrapping_add(displacement.wrapping_mul(2));
                }
            }
            0xC => {
                value = next;
                counter = word.low_bits() << 4;
            }
            _ => {
                prefix = Some(word.low_bits());
                forerunner = self.forerunner;
            }
        }

        let result = word.result();
        if result != 0 {
            self.registers[result as usize] = value;
        }
        self.counter = counter;
        self.prefix = prefix;
        self.forerunner = forerunner;
        match side {
            Side::Own => {
                self.last_own = result;
                if let Some(wait) = &mut self.pending {
                    *wait += 1;
                }
            }
            Side::Service => self.last_service = result,
        }
        self.interruptible = !word.is_interlocked();
        if closes {
            self.copies = None;
        }
        Ok(())
    }
}
