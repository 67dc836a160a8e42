//! The latency of the chains (refusal 16), over all runs by a window of one hypercycle. Outputs latch at the end of the cycle: a
//! latency is 1 more than the difference of cycles (request c).
//!
//! Why a window of one hypercycle decides. Let H be the hypercycle and P the period of the last link, and shift a run of it by H
//! cycles, that is by H/P elements. Then each read on the way uses an element that is later by H over its own signal's period:
//! that is so for NOW and LAST, whose periods are equal; for WHEN and LASTWHEN, since n × H/P_r = H/P_w; and for CURRENT, since
//! H/P_r = n × H/P_w. So the whole way back is later by H cycles, and the latency is the same.
//!
//! A met read goes back by at most the larger of its two periods, so by at most H cycles, and an element whose cycle is not
//! negative is 0 or more, since phases are below periods. So every run from cycle (hops × H) on counts. A run that counts
//! earlier has the latency of its shift into that window, and that one counts too. Therefore the latencies of all counted
//! runs are those of the runs in cycles hops × H to (hops + 1) × H − 1, which all count.
use super::checks::settled;
use super::program::{Chain, Kind, Program};
use super::schedule::Schedule;
use super::Refusal;

pub fn check(program: &Program, schedule: &Schedule, hypercycle: u32) -> Result<(), Refusal> {
    match program.chains.iter().find(|chain| !kept(program, schedule, hypercycle, chain)) {
        Some(chain) => Err((16, chain.at)),
        None => Ok(()),
    }
}

/// How a read takes the reader's element to the one it uses.
#[derive(Clone, Copy)]
struct Hop {
    kind: Kind,
    index: u32,
    factor: u32,
}

impl Hop {
    /// In the window no element is negative, nor is any difference here.
    fn back(self, element: u32) -> u32 {
        match self.kind {
            Kind::Now => element,
            Kind::Last => element - 1,
            Kind::When => element * self.factor + self.index,
            Kind::LastWhen => element * self.factor + self.index - 1,
            Kind::Current => (element - self.index) / self.factor,
        }
    }
}

fn kept(program: &Program, schedule: &Schedule, hypercycle: u32, chain: &Chain) -> bool {
    let links = &program.links[chain.links.clone()];
    let mut hops = [Hop { kind: Kind::Now, index: 0, factor: 1 }; 15];
    let hops = &mut hops[..links.len() - 1];
    for (hop, pair) in hops.iter_mut().zip(links.windows(2).rev()) {
        *hop = hop_of(program, schedule, pair[0].signal, pair[1].signal);
    }
    let [first, last] = [&links[0], &links[links.len() - 1]].map(|link| usize::from(link.signal));
    let cycle = |signal: usize, element: u32| element * program.signals[signal].period + schedule.phase[signal];
    let runs = hypercycle / program.signals[last].period;
    let start = hops.len() as u32 * runs;
    let mut window = start..start + runs;
    let within = |element: u32| {
        let used = hops.iter().fold(element, |element, hop| hop.back(element));
        cycle(last, element) - cycle(first, used) + 1 <= chain.bound
    };
    if chain.backward {
        window.all(within)
    } else {
        window.any(within)
    }
}

/// The one read of `before` in the equation of `link`, which is met.
fn hop_of(program: &Program, schedule: &Schedule, before: u8, link: u8) -> Hop {
    let reads = &program.reads[program.signals[usize::from(link)].reads.clone()];
    let read = reads.iter().find(|read| read.signal == before).expect("a link reads the link before");
    let index = settled(program, schedule, read).expect("every read is met");
    Hop { kind: read.kind, index, factor: read.factor.into() }
}
