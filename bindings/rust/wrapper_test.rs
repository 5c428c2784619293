//! Tests of the wrapper: every refusal comes through as its case, slices of any length are safe, and both layers agree.

use pchelodar::{Answer, Engine, Lent, Queries, Query, Refusal, Totals, MAXIMUM, MINIMUM, SUM};
use pchelodar::{LIST_NUMBERS, QUERY_LIMIT, STATE_NUMBERS, TABLE_PLACES};

const FILLER: u32 = 77;
const ANSWER_FILLER: Answer = Answer { number: -7, kind: -7, count: -7, value: -7 };

/// Slices to lend, of any length, and answer places.
#[derive(Clone, Debug, PartialEq)]
struct Slices {
    state: Vec<u64>,
    queries: Vec<u32>,
    unsigned: [Vec<u32>; 3],
    sums: Vec<i64>,
    signed: [Vec<i32>; 2],
}

impl Slices {
    /// Slices with so many places more than they need, or fewer.
    fn with(more: isize) -> Slices {
        let places = |needed: usize| needed.checked_add_signed(more).unwrap();
        Slices {
            state: vec![u64::from(FILLER); places(STATE_NUMBERS)],
            queries: vec![FILLER; places(LIST_NUMBERS)],
            unsigned: [(); 3].map(|()| vec![FILLER; places(TABLE_PLACES)]),
            sums: vec![i64::from(FILLER); places(TABLE_PLACES)],
            signed: [(); 2].map(|()| vec![FILLER as i32; places(TABLE_PLACES)]),
        }
    }

    /// Cuts the slice of this place in the list to so many places.
    fn cut(&mut self, slice: usize, places: usize) {
        match slice {
            0 => self.state.truncate(places),
            1 => self.queries.truncate(places),
            2 => self.sums.truncate(places),
            3..=5 => self.unsigned[slice - 3].truncate(places),
            _ => self.signed[slice - 6].truncate(places),
        }
    }

    fn lend(&mut self) -> Lent<'_> {
        let [starts, max_starts, min_starts] = &mut self.unsigned;
        let [max_values, min_values] = &mut self.signed;
        Lent {
            state: &mut self.state,
            queries: &mut self.queries,
            starts,
            sums: &mut self.sums,
            max_starts,
            max_values,
            min_starts,
            min_values,
        }
    }

    /// Whether the places beyond those that a call may write hold what they were filled with.
    fn beyond_untouched(&self) -> bool {
        self.state[STATE_NUMBERS..].iter().all(|&word| word == u64::from(FILLER))
            && self.queries[LIST_NUMBERS..].iter().all(|&number| number == FILLER)
            && self.unsigned.iter().all(|table| table[TABLE_PLACES..].iter().all(|&start| start == FILLER))
            && self.sums[TABLE_PLACES..].iter().all(|&sum| sum == i64::from(FILLER))
            && self.signed.iter().all(|table| table[TABLE_PLACES..].iter().all(|&value| value == FILLER as i32))
    }
}

/// What each of the five calls comes to.
fn every_call(lent: &mut Lent<'_>) -> [Option<Refusal>; 5] {
    let mut answers = [ANSWER_FILLER; QUERY_LIMIT];
    let all = [
        lent.start().err(),
        lent.register(1, SUM, 1, 1).err(),
        lent.withdraw(1).err(),
        lent.reading(1, &mut answers).err(),
        lent.totals().err(),
    ];
    assert!(all[3].is_none() || answers.iter().all(|answer| *answer == ANSWER_FILLER));
    all
}

#[test]
fn refusals_have_their_numbers() {
    for (i, refusal) in Refusal::ALL.into_iter().enumerate() {
        assert_eq!(refusal.number() as usize, i + 1);
        assert_eq!(Refusal::from_number(refusal.number()), Some(refusal));
        assert!(refusal.to_string().starts_with(&format!("refused with {}: ", i + 1)));
    }
    assert_eq!(Refusal::from_number(0), None);
    assert_eq!(Refusal::from_number(12), None);
    assert_eq!(Refusal::from_number(u32::MAX), None);
}

#[test]
fn a_short_slice_is_refused_with_1() {
    for slice in 0..8 {
        for places in [0, 17, 160, 191, TABLE_PLACES - 1] {
            let needed = [STATE_NUMBERS, LIST_NUMBERS].get(slice).copied().unwrap_or(TABLE_PLACES);
            let mut slices = Slices::with(0);
            slices.lend().start().unwrap();
            slices.cut(slice, places.min(needed - 1));
            let before = slices.clone();
            assert_eq!(every_call(&mut slices.lend()), [Some(Refusal::TableTooShort); 5]);
            assert_eq!(slices, before);
        }
    }
}

#[test]
fn empty_slices_are_refused_with_1() {
    let mut lent = Lent {
        state: &mut [],
        queries: &mut [],
        starts: &mut [],
        sums: &mut [],
        max_starts: &mut [],
        max_values: &mut [],
        min_starts: &mut [],
        min_values: &mut [],
    };
    assert_eq!(every_call(&mut lent), [Some(Refusal::TableTooShort); 5]);
}

#[test]
fn what_no_start_left_is_refused_with_2() {
    let mut slices = Slices::with(3);
    let before = slices.clone();
    assert_eq!(slices.lend().totals(), Err(Refusal::Damaged));
    assert_eq!(slices.lend().withdraw(FILLER), Err(Refusal::Damaged));
    assert_eq!(slices.lend().reading(0, &mut []), Err(Refusal::Damaged));
    assert_eq!(slices.lend().register(1, SUM, 1, 1), Err(Refusal::Damaged));
    assert_eq!(slices, before);
    slices.lend().start().unwrap();
    assert_eq!(every_call(&mut slices.lend()), [None; 5]);
    assert!(slices.beyond_untouched());
}

#[test]
fn registrations_and_withdrawals_are_refused_with_3_to_9() {
    let mut engine = Engine::new();
    assert_eq!(engine.register(0, 9, 0, 0), Err(Refusal::NumberOutside));
    assert_eq!(engine.register(65_536, SUM, 1, 1), Err(Refusal::NumberOutside));
    assert_eq!(engine.register(1, 5, 0, 0), Err(Refusal::KindOutside));
    assert_eq!(engine.register(1, SUM, 4_097, 0), Err(Refusal::RangeOutside));
    assert_eq!(engine.register(1, SUM, 4_096, 4_097), Err(Refusal::SlideOutside));
    for number in 1..=32 {
        engine.register(number, SUM, 4_096, 4_096).unwrap();
    }
    assert_eq!(engine.register(32, SUM, 1, 1), Err(Refusal::NumberTaken));
    assert_eq!(engine.register(33, SUM, 1, 1), Err(Refusal::ListFull));
    assert_eq!(engine.withdraw(33), Err(Refusal::NotRegistered));
    engine.withdraw(1).unwrap();
    engine.register(33, SUM, 1, 1).unwrap();
    let numbers: Vec<u32> = engine.queries().map(|query| query.number).collect();
    assert_eq!(numbers, (2..=33).collect::<Vec<u32>>());
}

#[test]
fn the_list_is_read_in_place() {
    let mut queries = Queries::new();
    let (mut slices, mut answers) = (Slices::with(0), [ANSWER_FILLER; QUERY_LIMIT]);
    let mut lent = slices.lend();
    lent.queries = queries.numbers_mut();
    lent.start().unwrap();
    lent.register(30, MAXIMUM, 5, 2).unwrap();
    lent.reading(1, &mut answers).unwrap();
    lent.register(20, MINIMUM, 6, 1).unwrap();
    lent.register(25, SUM, 7, 3).unwrap();
    let first = Query { number: 30, kind: MAXIMUM, range: 5, slide: 2, origin: 0 };
    let second = Query { number: 20, kind: MINIMUM, range: 6, slide: 1, origin: 1 };
    let third = Query { number: 25, kind: SUM, range: 7, slide: 3, origin: 1 };
    assert_eq!(queries.queries().collect::<Vec<Query>>(), [first, second, third]);
    assert_eq!((queries.registered(), queries.query(1), queries.query(3)), (3, Some(second), None));
    assert_eq!((queries.query[1], queries.query[3], queries.query(QUERY_LIMIT)), (second, Query::default(), None));
    assert_eq!(queries.order[..4], [1, 2, 0, 0]);
    assert_eq!(queries.numbers()[..10], [30, MAXIMUM, 5, 2, 0, 20, MINIMUM, 6, 1, 1]);
    assert_eq!((&queries.numbers()[160..], queries.numbers().len()), (&queries.order[..], LIST_NUMBERS));
}

#[test]
fn places_that_are_not_in_order_are_refused_with_2() {
    let orders = [[3, 1, 0], [1, 1, 0], [2, 1, 0], [u32::MAX, 2, 0]];
    for order in orders {
        let mut slices = Slices::with(0);
        let mut lent = slices.lend();
        lent.start().unwrap();
        for number in [30, 20, 25] {
            lent.register(number, SUM, 5, 2).unwrap();
        }
        assert_eq!(lent.queries[160..163], [1, 2, 0]);
        lent.queries[160..163].copy_from_slice(&order);
        assert_eq!(lent.register(1, SUM, 1, 1), Err(Refusal::Damaged));
        assert_eq!(lent.withdraw(20), Err(Refusal::Damaged));
        assert_eq!(lent.reading(0, &mut []), Err(Refusal::Damaged));
        assert_eq!(lent.totals(), Err(Refusal::Damaged));
        assert_eq!(lent.queries[160..163], order);
        lent.queries[160..163].copy_from_slice(&[1, 2, 0]);
        lent.withdraw(20).unwrap();
    }
}

#[test]
fn readings_are_refused_with_10_and_11() {
    let mut slices = Slices::with(0);
    let mut lent = slices.lend();
    lent.start().unwrap();
    for number in 1..=3 {
        lent.register(number, MINIMUM, 2, 1).unwrap();
    }
    assert_eq!(lent.reading(4, &mut []), Err(Refusal::AnswersTooShort));
    assert_eq!(lent.reading(4, &mut [ANSWER_FILLER; 2]), Err(Refusal::AnswersTooShort));
    let mut answers = [ANSWER_FILLER; 5];
    assert_eq!(lent.reading(4, &mut answers).unwrap().len(), 3);
    assert_eq!(answers[2], Answer { number: 3, kind: 4, count: 1, value: 4 });
    assert_eq!(answers[3..], [ANSWER_FILLER; 2]);
    lent.start().unwrap();
    lent.state[0] = u64::from(u32::MAX); // no test takes so many readings
    assert_eq!(lent.reading(4, &mut answers), Err(Refusal::CountExhausted));
}

/// Document 01, figures 1 and 2, at the second of which the totals stand.
#[test]
fn figures_of_a_maximum() {
    let mut engine = Engine::default();
    engine.register(9, MAXIMUM, 3, 1).unwrap();
    let mut values = Vec::new();
    for reading in [5, 3, 3, 8, -2, 6, 1] {
        let answers = engine.reading(reading).unwrap();
        assert_eq!(answers.len(), 1);
        values.push((answers[0].value, answers[0].count));
    }
    assert_eq!(values, [(5, 1), (5, 2), (5, 3), (8, 3), (8, 3), (8, 3), (6, 3)]);
    let totals = Totals { readings: 7, partials: 7, max_comparisons: 8, min_comparisons: 8 };
    assert_eq!(engine.totals(), totals);
    let copy = engine.clone();
    engine.start();
    assert_eq!((engine.totals(), engine.queries().len()), (Totals::default(), 0));
    assert_eq!((copy.totals(), copy.queries().len()), (totals, 1));
}

/// The same calls to both layers, the lent slices being longer than they need.
#[test]
fn both_layers_agree() {
    let (mut engine, mut slices) = (Engine::new(), Slices::with(5));
    slices.lend().start().unwrap();
    let mut word: u64 = 1;
    for _ in 0..20_000 {
        word = word.wrapping_mul(6_364_136_223_846_793_005).wrapping_add(1_442_695_040_888_963_407);
        let part = |low: u32, count: u64| ((word >> low) % count) as u32;
        let (number, kind, range, slide) = (part(20, 40), part(26, 6), part(29, 60), part(35, 9));
        let mut lent = slices.lend();
        match part(44, 10) {
            0 => assert_eq!(engine.register(number, kind, range, slide), lent.register(number, kind, range, slide)),
            1 => assert_eq!(engine.withdraw(number), lent.withdraw(number)),
            _ => {
                let mut answers = [ANSWER_FILLER; QUERY_LIMIT + 1];
                assert_eq!(engine.reading(word as i32), lent.reading(word as i32, &mut answers));
            }
        }
        assert_eq!(Ok(engine.totals()), lent.totals());
        for (i, query) in engine.queries().enumerate() {
            let numbers = [query.number, query.kind, query.range, query.slide, query.origin];
            assert_eq!(lent.queries[5 * i..5 * i + 5], numbers);
        }
    }
    assert!(slices.beyond_untouched());
}
