//! What a pair needs, without an image: L, L + 4N, the stack and the commands of each cycle.
//!
//! Commands and stack are taken from the code that parsing has written, by walking it as the machine would.
use super::{check, image, Refusal};

const COUNTS: usize = 240;

/// L, the length with the tail, and the highest stack use of any signal.
#[derive(Clone, Copy, Debug, PartialEq)]
pub struct Sizes {
    pub length: usize,
    pub written: usize,
    pub stack: usize,
}

/// Puts the commands of each cycle into `counts`, 0 from the hypercycle on. A refused report leaves them.
pub fn report(program: &[u8], schedule: &[u8], counts: &mut [u32; COUNTS]) -> Result<Sizes, Refusal> {
    let pair = check(program, schedule)?;
    *counts = [0; COUNTS];
    let mut stack = 0;
    let mut code = &pair.program.code[..];
    for (signal, phase) in pair.program.signals.iter().zip(pair.schedule.phase) {
        let (commands, height, rest) = walk(code);
        code = rest;
        stack = stack.max(height);
        for count in counts[..pair.hypercycle as usize].iter_mut().skip(phase as usize).step_by(signal.period as usize) {
            *count += commands;
        }
    }
    let length = image::length(&pair);
    Ok(Sizes { length, written: length + 4 * pair.program.signals.len(), stack })
}

/// The commands up to STORE, the most words on the stack, and the code after STORE.
fn walk(mut code: &[u8]) -> (u32, usize, &[u8]) {
    let (mut commands, mut height, mut most) = (0, 0usize, 0);
    loop {
        commands += 1;
        let width = match code[0] {
            0x5F => return (commands, most, &code[2..]),
            0x50 => {
                height += 1;
                5
            }
            0x51 | 0x52 => {
                height += 1;
                2
            }
            0x38 | 0x3B => 1,
            0x3A => {
                height -= 2;
                1
            }
            _ => {
                height -= 1;
                1
            }
        };
        most = most.max(height);
        code = &code[width..];
    }
}
