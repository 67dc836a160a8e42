//! Four programs on one board: load, mark and turn (refusals 20 to 23 and 26 to 28).
use super::machine::{cycle, reset};
use super::Refusal;

const WORDS: usize = 65;
const SAMPLES: usize = 64;

/// Whether a place is loaded and due, its stretch of the images, and the turns that took it since its load.
#[derive(Clone, Copy, Debug, Default, PartialEq)]
pub struct Place {
    pub loaded: bool,
    pub due: bool,
    pub start: usize,
    pub size: usize,
    pub count: u32,
}

impl Place {
    /// Its image, or 27.
    fn image<'a>(&self, images: &'a [u8]) -> Result<&'a [u8], Refusal> {
        let end = self.start.checked_add(self.size).ok_or((27, 0))?;
        images.get(self.start..end).ok_or((27, 0))
    }
}

/// The record.
#[derive(Clone, Debug, PartialEq)]
pub struct Board {
    pub places: [Place; 4],
    pub last: usize,
}

/// What a turn that is not refused reports.
#[derive(Clone, Copy, Debug, PartialEq)]
pub enum Outcome {
    Idle,
    /// The place and the commands that it ran.
    Ran(usize, u32),
    /// The place and the number of its run's refusal.
    Failed(usize, u8),
}

impl Outcome {
    /// As three numbers: 0 0 0 idle; 1, the place and the commands; 2, the place and the refusal.
    pub fn words(self) -> [u32; 3] {
        match self {
            Outcome::Idle => [0, 0, 0],
            Outcome::Ran(place, commands) => [1, place as u32, commands],
            Outcome::Failed(place, number) => [2, place as u32, number.into()],
        }
    }
}

impl Default for Board {
    fn default() -> Self {
        Board { places: [Place::default(); 4], last: 3 }
    }
}

impl Board {
    pub fn load(&mut self, images: &[u8], state: &mut [i32], place: usize, start: usize, size: usize) -> Result<(), Refusal> {
        let held = self.places.get_mut(place).ok_or((26, 0))?;
        if state.len() < 4 * WORDS {
            return Err((21, 0));
        }
        let loaded = Place { loaded: true, due: false, start, size, count: 0 };
        reset(loaded.image(images)?, &mut state[WORDS * place..][..WORDS])?;
        *held = loaded;
        Ok(())
    }

    pub fn mark(&mut self, place: usize) -> Result<(), Refusal> {
        let held = self.places.get_mut(place).ok_or((26, 0))?;
        if !held.loaded {
            return Err((28, 0));
        }
        held.due = true;
        Ok(())
    }

    pub fn turn(&mut self, images: &[u8], state: &mut [i32], samples: &[i32]) -> Result<Outcome, Refusal> {
        if state.len() < 4 * WORDS {
            return Err((21, 0));
        }
        if samples.len() < 4 * SAMPLES {
            return Err((23, 0));
        }
        let after = self.last % 4 + 1;
        let Some(place) = (after..after + 4).map(|place| place % 4).find(|&place| self.places[place].due) else {
            return Ok(Outcome::Idle);
        };
        let held = &mut self.places[place];
        held.due = false;
        held.count = held.count.saturating_add(1);
        self.last = place;
        let words = &mut state[WORDS * place..][..WORDS];
        let run = self.places[place].image(images).and_then(|image| cycle(image, words, &samples[SAMPLES * place..][..SAMPLES]));
        Ok(run.map_or_else(|(number, _)| Outcome::Failed(place, number), |commands| Outcome::Ran(place, commands)))
    }
}
