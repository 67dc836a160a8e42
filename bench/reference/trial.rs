//! A bench trial from a script (refusals 24 and 25 after those of the pair): one line a cycle.
use super::machine::Image;
use super::{compile, check, machine, Refusal};
use std::io::Write;

const SCRIPT_BYTES: usize = 2048;
const BLOCK_BYTES: usize = 65_536;

enum Command {
    /// A SET with its offset, its signal and the word.
    Set(usize, usize, i32),
    Run(usize),
}

/// The commands of a script up to END, its last byte (24).
fn parse(script: &[u8]) -> Result<Vec<Command>, Refusal> {
    if script.len() > SCRIPT_BYTES {
        return Err((24, 0));
    }
    let cut = Err((24, script.len()));
    let (mut commands, mut at) = (vec![], 0);
    loop {
        match script[at..] {
            [0x00] => return Ok(commands),
            [0x00, ..] => return Err((24, at + 1)),
            [0x70, signal, a, b, c, d, ..] => {
                commands.push(Command::Set(at, signal.into(), i32::from_le_bytes([a, b, c, d])));
                at += 6;
            }
            [0x71, count, ..] => {
                commands.push(Command::Run(count.into()));
                at += 2;
            }
            [] | [0x70, ..] | [0x71, ..] => return cut,
            _ => return Err((24, at)),
        }
    }
}

/// Prints a line for each cycle, block after block, and yields how many there are. Before a refusal nothing is printed.
pub fn trial(program: &[u8], schedule: &[u8], script: &[u8], mut print: impl FnMut(&[u8])) -> Result<usize, Refusal> {
    let parsed = check(program, schedule)?.program;
    let commands = parse(script)?;
    for command in &commands {
        if let &Command::Set(at, signal, _) = command {
            let input = parsed.signals.get(signal).is_some_and(|signal| parsed.code[signal.code] == 0x52);
            if !input {
                return Err((25, at));
            }
        }
    }
    let mut image = vec![0; 65_791];
    let length = compile(program, schedule, &mut image)?;
    let (mut state, mut samples) = ([0; 65], [0; 64]);
    machine::reset(&image[..length], &mut state)?;
    let image = Image::check(&image[..length])?;
    let (mut lines, mut block) = (0, Vec::with_capacity(BLOCK_BYTES + 1024));
    for command in commands {
        let count = match command {
            Command::Set(_, signal, word) => {
                samples[signal] = word;
                continue;
            }
            Command::Run(count) => count,
        };
        for _ in 0..count {
            image.run(state[0] as usize, &mut state, &samples);
            write!(block, "{lines}").expect("memory");
            for word in &state[1..=image.signals] {
                write!(block, " {word}").expect("memory");
            }
            block.push(b'\n');
            lines += 1;
            if block.len() >= BLOCK_BYTES {
                print(&block);
                block.clear();
            }
        }
    }
    print(&block);
    Ok(lines)
}
