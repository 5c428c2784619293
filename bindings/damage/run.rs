//! One run: calls on a board that goes on, with the reference beside it, and between them damage that is undone.

use crate::board::{Board, SLICES};
use crate::call::Call;
use crate::check::{self, Checked};
use crate::harm::{self, Sites};
use crate::judge;
use crate::lengths::{self, Short};
use crate::places::{Slice, MORE};
use crate::profile::Profile;
use crate::random::Random;
use crate::reference::Reference;
use crate::site::Damage;
use crate::tally::Tally;
use crate::whole;

/// How the runs are made.
#[derive(Clone, Copy)]
pub struct Settings {
    /// Steps of a run: a step is a call, or damage with the calls on it.
    pub steps: usize,
    /// Each call is lent allocations of just the lent length.
    pub exact: bool,
    /// Each call is printed before it is made.
    pub trace: bool,
}

pub struct Run<'a> {
    random: Random,
    profile: Profile,
    sites: Sites,
    shorts: Vec<Short>,
    board: Board,
    /// The board before a call.
    before: Board,
    /// The board before damage.
    clean: Board,
    /// The state that a start leaves.
    fresh: Vec<u64>,
    reference: Reference,
    damages: Vec<Damage>,
    calls: usize,
    last: Call,
    trace: bool,
    tally: &'a mut Tally,
}

impl<'a> Run<'a> {
    pub fn new(seed: u64, settings: Settings, tally: &'a mut Tally) -> Run<'a> {
        let mut random = Random::new(seed);
        Run {
            profile: Profile::new(seed, &mut random, settings.steps),
            random,
            sites: Sites::new(seed),
            shorts: lengths::every_short(),
            board: Board::new(settings.exact),
            before: Board::new(settings.exact),
            clean: Board::new(settings.exact),
            fresh: Vec::new(),
            reference: Reference::new(),
            damages: Vec::new(),
            calls: 0,
            last: Call::Start,
            trace: settings.trace,
            tally,
        }
    }

    /// The whole run: an error says what is wrong, after which call, on what damage.
    pub fn go(mut self) -> Checked {
        let outcome = self.play();
        outcome.map_err(|wrong| {
            let lent: Vec<usize> = (0..SLICES).map(|slice| self.board.slice(slice).lent()).collect();
            let damages: Vec<String> = self.damages.iter().map(Damage::to_string).collect();
            let damaged = if damages.is_empty() { "nothing".to_string() } else { damages.join("; ") };
            let call = format!("call {} of the run: {:?}", self.calls, self.last);
            let answers = self.board.answers.lent();
            format!("{wrong}\n  {call}\n  lent: {lent:?}, answers {answers}\n  damaged: {damaged}")
        })
    }

    fn play(&mut self) -> Checked {
        self.first_start()?;
        self.register_first()?;
        for _ in 0..self.profile.warm {
            let call = self.profile.reading(&mut self.random);
            self.clean_call(call)?;
        }
        for _ in 0..self.profile.steps {
            self.step()?;
        }
        self.clean_call(Call::Totals)
    }

    /// A start on tables that hold anything.
    fn first_start(&mut self) -> Checked {
        let anything = whole::make_arbitrary(&mut self.random, &mut self.board);
        self.damages.push(anything);
        let number = self.attempt(Call::Start)?;
        self.fresh = self.board.state.values().to_vec();
        self.started(number)?;
        self.damages.clear();
        Ok(())
    }

    /// The first queries; where the rings are to turn, one that closes a partial at every reading.
    fn register_first(&mut self) -> Checked {
        if self.profile.warm > 0 {
            self.clean_call(Call::Register { number: 99, kind: 3, range: 4_096, slide: 1 })?;
        }
        for number in 1..=self.profile.first {
            let call = self.profile.good_register(&mut self.random, number as u32);
            self.clean_call(call)?;
        }
        Ok(())
    }

    fn step(&mut self) -> Checked {
        match self.random.below(20) {
            0..=8 => {
                let call = self.profile.call(&mut self.random);
                self.clean_call(call)
            }
            9..=10 => self.short_call(),
            _ => self.episode(),
        }
    }

    /// A call on what came from a start: the outcome is the reference's.
    fn clean_call(&mut self, call: Call) -> Checked {
        let longer = lengths::enough(&mut self.random, &mut self.board);
        let answers = lengths::answers(&mut self.random, &mut self.board, self.reference.due_next());
        let number = self.attempt(call)?;
        let outcome = self.reference.take(call, self.board.answers.lent());
        check::agrees(call, number, &outcome, &self.board, &self.reference)?;
        if call == Call::Start {
            self.started(number)?;
        }
        self.tally.clean(call, number, longer, answers);
        Ok(())
    }

    /// A call on slices of which some are too short, undamaged.
    fn short_call(&mut self) -> Checked {
        lengths::enough(&mut self.random, &mut self.board);
        let shorts = self.shorten();
        let call = self.profile.any_call(&mut self.random);
        let number = self.attempt(call)?;
        check::returned(number, 1, "a slice is too short")?;
        self.tally.short(&shorts);
        Ok(())
    }

    /// Makes one slice or several too short.
    fn shorten(&mut self) -> Vec<Short> {
        let several = if self.random.one_in(2) { 1 } else { self.random.between(2, SLICES) };
        let mut shorts: Vec<Short> = Vec::new();
        for _ in 0..several {
            let short = self.random.pick(&self.shorts);
            if shorts.iter().all(|other| other.slice != short.slice) {
                short.apply(&mut self.random, &mut self.board);
                shorts.push(short);
            }
        }
        shorts
    }

    /// Damage is done, some calls are made on it, and it is undone; after a start on it the run may go on from there.
    /// Where two equal numbers were exchanged, nothing is damaged, and the next call comes to what it would have.
    fn episode(&mut self) -> Checked {
        self.clean.copy_from(&self.board);
        self.harm();
        if self.board.same(&self.clean) {
            self.damages.clear();
            self.tally.undamaged += 1;
            let call = self.profile.call(&mut self.random);
            return self.clean_call(call);
        }
        let mut started = false;
        for _ in 0..self.random.between(1, 6) {
            if !started {
                started = self.damaged_call()?;
            }
        }
        self.damages.clear();
        if started && self.random.one_in(8) {
            self.reference.take(Call::Start, 0);
            return self.clean_call(Call::Totals);
        }
        self.board.copy_from(&self.clean);
        let call = self.profile.call(&mut self.random);
        self.clean_call(call)
    }

    fn harm(&mut self) {
        let several = if self.random.one_in(3) { self.random.between(2, 12) } else { 1 };
        match self.random.below(40) {
            0 => self.damages.push(whole::make_arbitrary(&mut self.random, &mut self.board)),
            1..=3 => self.damages.push(whole::make_plausible(&mut self.random, &mut self.board)),
            _ => {
                for _ in 0..several {
                    let (site, how) = self.sites.choose(&mut self.random, &self.clean);
                    self.damages.push(harm::damage(&mut self.random, &mut self.board, site, how));
                }
            }
        }
        self.tally.damage(&self.damages);
    }

    /// A call on a damaged board. Whether a start was accepted.
    fn damaged_call(&mut self) -> Result<bool, String> {
        lengths::enough(&mut self.random, &mut self.board);
        if self.random.one_in(10) {
            self.shorten();
        }
        let most = self.board.answers.needed() + MORE;
        let places = if self.random.one_in(4) { self.random.below(most + 1) } else { most };
        self.board.answers.set_lent(places);
        let call = self.profile.any_call(&mut self.random);
        let (short, listed) = (judge::short(&self.board), judge::listed(&self.board));
        let number = self.attempt(call)?;
        let wrote = number == 0 && matches!(call, Call::Reading { .. });
        let answered = if wrote { self.board.answered.values()[0] } else { 0 };
        self.tally.damaged(&self.damages, short, number, answered);
        if short {
            check::returned(number, 1, "a slice is too short")?;
        } else if number == 1 {
            return Err("refused with 1, and no slice is too short".to_string());
        } else if call == Call::Start {
            self.started(number)?;
            return Ok(true);
        } else if listed.contains(&true) {
            check::returned(number, 2, &format!("{:?}", judge::names(&listed)))?;
            self.tally.listed(&listed, &self.damages);
        }
        Ok(false)
    }

    /// Of a start on slices that are long enough.
    fn started(&self, number: u32) -> Checked {
        check::returned(number, 0, "a start takes any content")?;
        check::fresh(&self.board, &self.fresh)
    }

    /// Makes a call, and checks what holds of every call.
    fn attempt(&mut self, call: Call) -> Result<u32, String> {
        self.board.refill_replies();
        self.before.copy_from(&self.board);
        self.last = call;
        self.calls += 1;
        if self.trace {
            eprintln!("call {}: {call:?}, damages {:?}", self.calls, self.damages);
        }
        let number = call.make(&mut self.board);
        check::every_call(call, number, &self.before, &self.board)?;
        self.tally.call(call, number);
        Ok(number)
    }
}
