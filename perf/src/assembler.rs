//! A plain assembler, written from docs/LISTING.md and docs/ASSEMBLY.md. Nothing of it is proved.
//!
//! One pass checks the records, encodes them and notes what has to be filled in; a second fills in what refers to labels.

#[derive(Clone, Copy, Debug, PartialEq, Eq)]
pub struct Answers {
    pub text: usize,
    pub image: usize,
    pub run: usize,
}

#[derive(Clone, Copy, Debug, PartialEq, Eq)]
pub struct Refused {
    pub number: u8,
    pub index: usize,
}

#[derive(Clone, Copy, PartialEq, Eq)]
enum Section {
    Text,
    Data,
}

struct Record {
    operation: u8,
    rd: u8,
    ra: u8,
    rb: u8,
    reference: bool,
    label: u16,
    constant: i32,
}

/// Which constants an operation takes.
#[derive(Clone, Copy, PartialEq, Eq)]
enum Constants {
    Unused,
    Any,
    Byte,
    Count,
    One,
    Alignment,
}

/// Which fields an operation uses.
struct Rule {
    rd: bool,
    ra: bool,
    rb: bool,
    constants: Constants,
    reference: bool,
    label: bool,
}

/// How an immediate stands in its word without a prefix.
#[derive(Clone, Copy)]
enum Form {
    Signed,
    ByteOffset,
    WordOffset,
}

enum Patch {
    Immediate,
    Word,
    Branch,
    Call,
}

/// A place in a section where a value is to be filled in.
struct Fixup {
    index: usize,
    section: Section,
    at: usize,
    patch: Patch,
    constant: i32,
    label: Option<u16>,
}

struct Assembler {
    section: Section,
    text: Vec<u8>,
    data: Vec<u8>,
    labels: [Option<(Section, usize)>; 1024],
    fixups: Vec<Fixup>,
    /// The register that the last text word writes, or 0.
    result: u8,
}

impl Record {
    fn read(bytes: &[u8]) -> Record {
        let head = u32::from_be_bytes([bytes[0], bytes[1], bytes[2], bytes[3]]);
        let tail = i32::from_be_bytes([bytes[4], bytes[5], bytes[6], bytes[7]]);
        Record {
            operation: (head >> 25) as u8,
            rd: (head >> 21 & 15) as u8,
            ra: (head >> 17 & 15) as u8,
            rb: (head >> 13 & 15) as u8,
            reference: head >> 12 & 1 == 1,
            label: (head & 0xFFF) as u16,
            constant: tail,
        }
    }

    fn keeps_field_rules(&self, rule: &Rule) -> bool {
        (rule.rd || self.rd == 0)
            && (rule.ra || self.ra == 0)
            && (rule.rb || self.rb == 0)
            && (rule.reference || !self.reference)
            && (rule.label || self.reference || self.label == 0)
            && self.label < 1024
            && (rule.constants != Constants::Unused || self.constant == 0)
    }

    fn label_reference(&self) -> Option<u16> {
        self.reference.then_some(self.label)
    }
}

impl Constants {
    fn contain(self, constant: i32) -> bool {
        match self {
            Constants::Unused => true,
            Constants::Any => (-32768..=65535).contains(&constant),
            Constants::Byte => (-128..=255).contains(&constant),
            Constants::Count => (1..=15).contains(&constant),
            Constants::One => constant == 1,
            Constants::Alignment => matches!(constant, 1 | 2 | 4 | 8 | 16),
        }
    }
}

fn rule(operation: u8) -> Option<Rule> {
    use Constants::*;
    let (rd, ra, rb, constants, reference) = match operation {
        0 | 1 => (true, true, true, Unused, false),
        2 | 20..=24 | 51 | 52 => (true, true, false, Any, true),
        3..=8 => (true, false, true, Unused, false),
        9..=14 => (true, false, false, Any, true),
        15..=17 => (true, false, false, Count, false),
        18 | 19 => (true, false, false, One, false),
        25 | 32 | 34..=47 => (false, false, false, Any, true),
        48 => (false, true, true, Unused, false),
        49 => (false, true, false, Any, false),
        50 => (false, true, false, Any, true),
        53 | 55 | 56 | 64 | 65 | 69 => (false, false, false, Unused, false),
        54 | 57 | 59 => (true, true, false, Unused, false),
        58 => (true, true, false, Any, false),
        66 => (false, false, false, Byte, false),
        67 => (false, false, false, Any, true),
        68 => (false, false, false, Alignment, false),
        _ => return None,
    };
    let label = operation == 69;
    Some(Rule { rd, ra, rb, constants, reference, label })
}

fn pack(opcode: u16, rd: u8, ra: u8, rb: u8) -> u16 {
    opcode << 12 | (rd as u16) << 8 | (ra as u16) << 4 | rb as u16
}

fn is_interlocked(word: u16) -> bool {
    match word >> 12 {
        0x0..=0x2 | 0xD => true,
        0x3 | 0x4 => matches!(word >> 4 & 15, 4 | 5),
        _ => false,
    }
}

fn longest_run(text: &[u8]) -> usize {
    let mut run = 0;
    let mut longest = 0;
    for pair in text.chunks_exact(2) {
        if is_interlocked(u16::from_be_bytes([pair[0], pair[1]])) {
            run += 1;
            longest = longest.max(run);
        } else {
            run = 0;
        }
    }
    longest
}

impl Assembler {
    fn new(records: usize) -> Assembler {
        Assembler {
            section: Section::Text,
            text: Vec::with_capacity(4 * records),
            data: Vec::new(),
            labels: [None; 1024],
            fixups: Vec::new(),
            result: 0,
        }
    }

    fn here(&self) -> usize {
        match self.section {
            Section::Text => self.text.len(),
            Section::Data => self.data.len(),
        }
    }

    fn push(&mut self, byte: u8) {
        match self.section {
            Section::Text => {
                self.text.push(byte);
                self.result = 0;
            }
            Section::Data => self.data.push(byte),
        }
    }

    /// Puts a word into text that writes this register.
    fn emit(&mut self, word: u16, result: u8) {
        self.text.extend_from_slice(&word.to_be_bytes());
        self.result = result;
    }

    fn emit_prefix(&mut self, imm12: u16) {
        self.emit(0xD000 | imm12, 0);
    }

    fn fix(&mut self, index: usize, record: &Record, patch: Patch) {
        self.fixups.push(Fixup {
            index,
            section: self.section,
            at: self.here(),
            patch,
            constant: record.constant,
            label: record.label_reference(),
        });
    }

    fn in_hazard(&self, late: u8) -> bool {
        late != 0 && late == self.result
    }

    /// Puts a nop before a word that would read its late register too early.
    fn avoid_hazard(&mut self, late: u8) {
        if self.in_hazard(late) {
            self.emit(0x3000, 0);
        }
    }

    /// A word with an immediate: in its field where it fits, else behind a prefix. Without its immediate the word is `word`.
    fn emit_immediate(&mut self, index: usize, record: &Record, number: i32, form: Form, word: u16, late: u8, result: u8) {
        if record.reference {
            self.fix(index, record, Patch::Immediate);
            self.emit_prefix(0);
            self.emit(word, result);
            return;
        }
        let fits = match form {
            Form::Signed => (-8..=7).contains(&number),
            Form::ByteOffset => (0..=15).contains(&number),
            Form::WordOffset => (0..=30).contains(&number) && number % 2 == 0,
        };
        let bits = number as u16;
        if fits {
            let field = match form {
                Form::Signed | Form::ByteOffset => bits & 15,
                Form::WordOffset => bits & 14 | bits >> 4,
            };
            self.avoid_hazard(late);
            self.emit(word | field, result);
        } else {
            self.emit_prefix(bits >> 4);
            self.emit(word | bits & 15, result);
        }
    }

    fn emit_zero_extension(&mut self, rd: u8) {
        self.emit_prefix(0x00F);
        self.emit(pack(4, rd, 0, 15), rd);
    }

    fn emit_sign_extension(&mut self, rd: u8) {
        self.emit_prefix(0x008);
        self.emit(pack(4, rd, 2, 0), rd);
        self.emit_prefix(0xFF8);
        self.emit(pack(2, rd, rd, 0), rd);
    }

    fn emit_move(&mut self, rd: u8, ra: u8) {
        if rd != ra {
            self.emit(pack(0, rd, ra, 0), rd);
        }
    }

    /// Encodes a record that keeps the field rules, or answers the number of its refusal.
    fn encode(&mut self, index: usize, record: &Record) -> Result<(), u8> {
        let &Record { operation, rd, ra, rb, constant, .. } = record;
        let is_instruction = operation < 64;
        let misplaced = (is_instruction && self.section == Section::Data)
            || ((is_instruction || operation == 67) && self.here() % 2 == 1);
        if misplaced {
            return Err(6);
        }
        match operation {
            0 if self.in_hazard(rb) && ra != rb => self.emit(pack(0, rd, rb, ra), rd),
            0 | 1 => {
                self.avoid_hazard(rb);
                self.emit(pack(operation as u16, rd, ra, rb), rd);
            }
            2 | 51 => self.emit_immediate(index, record, constant, Form::Signed, pack(2, rd, ra, 0), 0, rd),
            3..=8 => {
                if operation >= 7 && self.in_hazard(rb) {
                    return Err(8);
                }
                self.avoid_hazard(rb);
                self.emit(pack(3, rd, operation - 3, rb), rd);
            }
            9..=14 => {
                let word = pack(4, rd, operation - 9, 0);
                self.emit_immediate(index, record, constant, Form::Signed, word, 0, rd);
            }
            15..=19 => {
                for _ in 0..constant {
                    self.emit(pack(4, rd, operation - 9, 1), rd);
                }
            }
            20 => self.emit_immediate(index, record, constant, Form::WordOffset, pack(5, rd, ra, 0), 0, rd),
            21 => self.emit_immediate(index, record, constant, Form::ByteOffset, pack(6, rd, ra, 0), 0, rd),
            22 => self.emit_immediate(index, record, constant, Form::WordOffset, pack(8, rd, ra, 0), rd, 0),
            23 => self.emit_immediate(index, record, constant, Form::ByteOffset, pack(9, rd, ra, 0), rd, 0),
            24 => self.emit_immediate(index, record, constant, Form::WordOffset, pack(10, rd, ra, 0), 0, rd),
            25 => {
                self.fix(index, record, Patch::Call);
                self.emit(0xC000, 15);
            }
            32..=47 => {
                self.fix(index, record, Patch::Branch);
                self.emit(pack(11, operation - 32, 0, 0), 0);
            }
            48 => {
                self.avoid_hazard(rb);
                self.emit(pack(1, 0, ra, rb), 0);
            }
            49 => self.emit_immediate(index, record, -constant, Form::Signed, pack(2, 0, ra, 0), 0, 0),
            50 => self.emit_immediate(index, record, constant, Form::WordOffset, pack(10, 0, ra, 0), 0, 0),
            52 => {
                self.emit_immediate(index, record, constant, Form::ByteOffset, pack(6, rd, ra, 0), 0, rd);
                self.emit_sign_extension(rd);
            }
            53 => self.emit(0x3000, 0),
            54 => self.emit(pack(0, rd, ra, 0), rd),
            55 => self.emit(0xA0F0, 0),
            56 => self.emit(0xA0E0, 0),
            57 => {
                self.emit_move(rd, ra);
                self.emit_zero_extension(rd);
                self.emit_sign_extension(rd);
            }
            58 => self.emit_immediate(index, record, -constant, Form::Signed, pack(2, rd, ra, 0), 0, rd),
            59 => {
                self.emit_move(rd, ra);
                self.emit_zero_extension(rd);
            }
            64 => self.section = Section::Text,
            65 => self.section = Section::Data,
            66 => self.push(constant as u8),
            67 => {
                self.fix(index, record, Patch::Word);
                self.push(0);
                self.push(0);
            }
            68 => {
                while self.here() % constant as usize != 0 {
                    self.push(0);
                }
            }
            _ => {
                let here = self.here();
                let label = &mut self.labels[record.label as usize];
                if label.is_some() {
                    return Err(7);
                }
                *label = Some((self.section, here));
            }
        }
        Ok(())
    }

    fn first_pass(&mut self, listing: &[u8]) -> Result<(), Refused> {
        for (index, bytes) in listing.chunks_exact(8).enumerate() {
            let record = Record::read(bytes);
            let refused = |number| Refused { number, index };
            let rule = rule(record.operation).ok_or(refused(3))?;
            if !record.keeps_field_rules(&rule) {
                return Err(refused(4));
            }
            if !rule.constants.contain(record.constant) {
                return Err(refused(5));
            }
            self.encode(index, &record).map_err(refused)?;
        }
        Ok(())
    }

    /// Fills a value in, or answers the number of its refusal.
    fn fill(&mut self, fixup: &Fixup) -> Result<(), u8> {
        let mut value = fixup.constant as i64;
        if let Some(label) = fixup.label {
            value += match self.labels[label as usize] {
                None => return Err(10),
                Some((Section::Text, offset)) => offset as i64,
                Some((Section::Data, offset)) => (self.text.len() + offset) as i64,
            };
        }
        let least = match fixup.patch {
            Patch::Branch | Patch::Call => 0,
            Patch::Immediate | Patch::Word => -32768,
        };
        if value < least || value > 65535 {
            return Err(11);
        }
        let section = match fixup.section {
            Section::Text => &mut self.text,
            Section::Data => &mut self.data,
        };
        let at = fixup.at;
        let bits = value as u16;
        match fixup.patch {
            Patch::Immediate => {
                section[at] |= (bits >> 12) as u8;
                section[at + 1] = (bits >> 4) as u8;
                section[at + 3] |= (bits & 15) as u8;
            }
            Patch::Word => section[at..at + 2].copy_from_slice(&bits.to_be_bytes()),
            Patch::Branch => {
                let distance = value - (at as i64 + 4);
                if value % 2 != 0 || !(-256..=254).contains(&distance) {
                    return Err(12);
                }
                section[at + 1] = (distance / 2) as u8;
            }
            Patch::Call => {
                if value % 16 != 0 {
                    return Err(12);
                }
                section[at] |= (bits >> 12) as u8;
                section[at + 1] = (bits >> 4) as u8;
            }
        }
        Ok(())
    }
}

/// Assembles a listing into a buffer; a refusal alters nothing.
pub fn assemble(listing: &[u8], image: &mut [u8]) -> Result<Answers, Refused> {
    let count = listing.len() / 8;
    let refused = |number| Refused { number, index: count };
    if listing.len() % 8 != 0 {
        return Err(refused(1));
    }
    if count > 4096 {
        return Err(refused(2));
    }
    let mut assembler = Assembler::new(count);
    assembler.first_pass(listing)?;
    while assembler.text.len() % 16 != 0 {
        assembler.text.push(0);
    }
    let text = assembler.text.len();
    let size = text + assembler.data.len();
    if size > 65280 {
        return Err(refused(9));
    }
    for fixup in std::mem::take(&mut assembler.fixups) {
        let index = fixup.index;
        assembler.fill(&fixup).map_err(|number| Refused { number, index })?;
    }
    if size > image.len() {
        return Err(refused(13));
    }
    image[..text].copy_from_slice(&assembler.text);
    image[text..size].copy_from_slice(&assembler.data);
    Ok(Answers { text, image: size, run: longest_run(&assembler.text) })
}
