//! What a run is handed, and what the model makes of it.

use trial::random::Random;
use trial::steps::{self, Ran, Step, ANNS, TERMS};
use trial::table::Lanes;

/// All that a run is handed.
#[derive(Clone, Debug)]
pub struct Running {
    pub kind: u8,
    pub lanes: Lanes,
    pub count: usize,
    pub steps: Vec<Step>,
    pub step_count: usize,
    pub allowed: u32,
    pub terms: Vec<u16>,
    pub anns: Vec<u64>,
}

impl Running {
    /// Answer lanes of so many rows, with anything in them.
    pub fn room(mut self, random: &mut Random, rows: usize) -> Running {
        self.terms = (0..TERMS * rows).map(|_| random.draw() as u16).collect();
        self.anns = (0..ANNS * rows).map(|_| random.draw()).collect();
        self
    }

    pub fn model(&self) -> (Ran, Vec<u16>, Vec<u64>) {
        let (mut terms, mut anns) = (self.terms.clone(), self.anns.clone());
        let Running { kind, lanes, count, steps, step_count, allowed, .. } = self;
        let ran =
            steps::run(*kind, lanes, *count, steps, *step_count, *allowed, &mut terms, &mut anns);
        (ran, terms, anns)
    }
}
