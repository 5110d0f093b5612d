//! The plain assembler and the plain core behind the same interface as the proved library.

use crate::assembler;
use crate::core::{Core, Memory, Side, Step, StepRefusal, Tally};
use crate::proved::{Assembly, Fault, Playing};

pub fn assemble(listing: &[u8], image: &mut [u8]) -> Assembly {
    match assembler::assemble(listing, image) {
        Ok(answers) => Assembly { refusal: 0, index: 0, text: answers.text, image: answers.image, run: answers.run },
        Err(refused) => Assembly { refusal: refused.number, index: refused.index, text: 0, image: 0, run: 0 },
    }
}

fn fault(refusal: StepRefusal) -> Fault {
    let side = match refusal.side {
        Side::Own => 0,
        Side::Service => 1,
    };
    Fault { number: refusal.number, side, address: refusal.address }
}

fn tally_of_step(step: Step) -> Tally {
    match step {
        Step::Taken(wait) => Tally { takings: 1, wait, ..Tally::default() },
        Step::Made(Side::Own) => Tally { own: 1, ..Tally::default() },
        Step::Made(Side::Service) => Tally { service: 1, ..Tally::default() },
    }
}

pub fn play(memory: &mut [u8], image: &[u8], text: u16, lo: u16, hi: u16, actions: &[u8]) -> Playing {
    let mut memory = Memory::new(memory);
    let mut core = Core::new();
    let mut playing = Playing {
        own: 0,
        service: 0,
        takings: 0,
        registers: [0; 16],
        counter: 0,
        wait: 0,
        last: Fault::default(),
        loading: 0,
        owing: 0,
    };
    if let Err(number) = core.load(&mut memory, image, text, lo, hi) {
        return Playing { loading: number, ..playing };
    }
    for action in actions.chunks_exact(3) {
        let mut tally = Tally::default();
        playing.last = match action[0] {
            0 => match core.request() {
                Ok(()) => Fault::default(),
                Err(number) => Fault { number, ..Fault::default() },
            },
            1 => match core.step(&mut memory) {
                Ok(step) => {
                    tally = tally_of_step(step);
                    Fault::default()
                }
                Err(refusal) => fault(refusal),
            },
            _ => {
                let (made, refusal) = core.run(&mut memory, u16::from_be_bytes([action[1], action[2]]));
                tally = made;
                refusal.map(fault).unwrap_or_default()
            }
        };
        playing.own += tally.own as u64;
        playing.service += tally.service as u64;
        playing.takings += tally.takings as u64;
        playing.wait = playing.wait.max(tally.wait);
    }
    Playing { registers: *core.registers(), counter: core.counter(), owing: core.owing(), ..playing }
}
