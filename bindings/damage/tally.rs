//! Counts: what was damaged, what was lent, and what the calls returned.

use crate::board::{QUERY_LIMIT, SLOT_NUMBERS, TABLE_PLACES};
use crate::call::{Call, CALL_NAMES};
use crate::judge::{Listed, CASES};
use crate::lengths::{every_short, Answers, Short, ANSWERS};
use crate::site::{Damage, How, Site, HOWS, SITES, TABLES};

/// Counts by returned number: 0 for an acceptance, and the refusals 1 to 11.
pub type ByNumber = [u64; 12];

/// Rows of the damaged calls: a site each where it alone was damaged, then these.
pub const ARBITRARY: usize = SITES;
pub const PLAUSIBLE: usize = SITES + 1;
pub const SEVERAL: usize = SITES + 2;
pub const ROWS: usize = SITES + 3;

pub struct Tally {
    pub runs: u64,
    /// Every call, by what it returned.
    pub calls: [ByNumber; CALL_NAMES.len()],
    /// Calls on what came from a start, and those with slices longer than they need.
    pub clean: u64,
    pub longer: u64,
    /// Times that nothing was damaged, two equal numbers having been exchanged.
    pub undamaged: u64,
    /// Damages at a site, by how.
    pub hows: [[u64; HOWS.len()]; SITES],
    /// Times that a board was damaged, by what was.
    pub boards: [u64; ROWS],
    /// Calls on damaged boards, by what they returned.
    pub damaged: [ByNumber; ROWS],
    /// Calls on damaged boards of which a slice was too short.
    pub damaged_short: u64,
    /// Answers that readings wrote on damaged boards that they accepted.
    pub damaged_answers: u64,
    /// The listed cases of refusal 2: in all, and where one number was damaged and one case holds.
    pub cases: [u64; CASES.len()],
    pub cases_alone: [u64; CASES.len()],
    /// Slices that were too short: alone, and with others.
    pub shorts: Vec<(Short, [u64; 2])>,
    /// Readings on what came from a start, by the length of the answer table.
    pub answers: [ByNumber; ANSWERS.len()],
    /// Fields of records that were damaged, unused and used, and places of tables.
    pub fields: [[[bool; 2]; SLOT_NUMBERS]; QUERY_LIMIT],
    pub places: Vec<[bool; TABLES]>,
}

impl Tally {
    pub fn new() -> Tally {
        Tally {
            runs: 0,
            calls: [[0; 12]; CALL_NAMES.len()],
            clean: 0,
            longer: 0,
            undamaged: 0,
            hows: [[0; HOWS.len()]; SITES],
            boards: [0; ROWS],
            damaged: [[0; 12]; ROWS],
            damaged_short: 0,
            damaged_answers: 0,
            cases: [0; CASES.len()],
            cases_alone: [0; CASES.len()],
            shorts: every_short().into_iter().map(|short| (short, [0; 2])).collect(),
            answers: [[0; 12]; ANSWERS.len()],
            fields: [[[false; 2]; SLOT_NUMBERS]; QUERY_LIMIT],
            places: vec![[false; TABLES]; TABLE_PLACES],
        }
    }

    /// A call that returned one of its own numbers.
    pub fn call(&mut self, call: Call, number: u32) {
        self.calls[call.name()][number as usize] += 1;
    }

    pub fn clean(&mut self, call: Call, number: u32, longer: bool, answers: Answers) {
        self.clean += 1;
        self.longer += u64::from(longer);
        if matches!(call, Call::Reading { .. }) {
            self.answers[answers as usize][number as usize] += 1;
        }
    }

    pub fn short(&mut self, shorts: &[Short]) {
        let with_others = usize::from(shorts.len() > 1);
        for (short, counts) in &mut self.shorts {
            counts[with_others] += u64::from(shorts.contains(short));
        }
    }

    /// A board that was damaged.
    pub fn damage(&mut self, damages: &[Damage]) {
        self.boards[row(damages)] += 1;
        for damage in damages {
            if let Damage::At { site, how, before, after } = *damage {
                self.hows[site.row()][how as usize] += 1;
                if before != after {
                    self.mark(site, how);
                }
            }
        }
    }

    /// Which fields and places were damaged by themselves.
    fn mark(&mut self, site: Site, how: How) {
        match site {
            Site::Record { slot, field, used } => self.fields[slot][field][usize::from(used)] = true,
            Site::Table { table, place } if !how.is_stretch() => self.places[place][table] = true,
            _ => {}
        }
    }

    /// A call on a damaged board, and how many answers it wrote.
    pub fn damaged(&mut self, damages: &[Damage], short: bool, number: u32, answered: usize) {
        self.damaged[row(damages)][number as usize] += 1;
        self.damaged_short += u64::from(short);
        self.damaged_answers += answered as u64;
    }

    pub fn listed(&mut self, listed: &Listed, damages: &[Damage]) {
        let one_case = listed.iter().filter(|&&holds| holds).count() == 1;
        let alone = one_case && matches!(damages, [Damage::At { .. }]);
        for (case, &holds) in listed.iter().enumerate() {
            self.cases[case] += u64::from(holds);
            self.cases_alone[case] += u64::from(holds && alone);
        }
    }
}

/// The row of what was damaged.
fn row(damages: &[Damage]) -> usize {
    match damages {
        [Damage::Arbitrary] => ARBITRARY,
        [Damage::Plausible] => PLAUSIBLE,
        [Damage::At { site, .. }] => site.row(),
        _ => SEVERAL,
    }
}
