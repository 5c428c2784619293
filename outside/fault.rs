//! Deliberate mistakes for the self-test. The reference model is run with `Fault::None`; every other value makes one
//! small part of it wrong.

#[derive(Clone, Copy, Debug, PartialEq, Eq)]
pub enum Fault {
    None,
    /// A maximum that starts from 0.
    MaximumFromZero,
    /// A minimum that starts from 0.
    MinimumFromZero,
    /// Sums kept in 32 bits.
    NarrowSum,
    /// Cuts only at multiples of the slide.
    SlideCutsOnly,
    /// No cut at a registration.
    NoCutAtRegistration,
    /// The older of two equal partials is kept.
    OlderEqualKept,
    /// Partials past the horizon are still compared.
    PastHorizonCompared,
    /// A partial that starts exactly at the horizon is set aside.
    HorizonTooLate,
    /// One place too few for the live partials.
    RingTooShort,
    /// The comparison with the standing partial that is left is not counted.
    LastComparisonDropped,
    /// The window reaches back before the registration point.
    WindowBeforeRegistration,
    /// Due where n, not n - g, is a multiple of the slide.
    DueFromStart,
    /// Withdrawing the last query closes the open partial.
    WithdrawalCloses,
    /// A withdrawal moves the last query into the gap.
    WithdrawalReorders,
    /// Refusals 7 and 8 are judged before 3 to 6.
    ListBeforeFields,
    /// 33 queries may be registered together.
    OneQueryTooMany,
    /// A refused line counts as a reading.
    RefusedLineCounted,
    /// A last line without byte 10 is dropped.
    LastLineDropped,
    /// An empty line is passed over in silence.
    EmptyLineSkipped,
    /// A line of 65 bytes is parsed.
    LineLimitTooLong,
    /// All fields are tried for 14 before any is tried for 15.
    FormBeforeWidth,
    /// `V -0` is read as 0.
    MinusZeroRead,
}

/// Each wrong variant with the most lines its shrunk session may have.
pub const WRONG_VARIANTS: [(Fault, usize); 22] = [
    (Fault::MaximumFromZero, 8),
    (Fault::MinimumFromZero, 8),
    (Fault::NarrowSum, 8),
    (Fault::SlideCutsOnly, 8),
    (Fault::NoCutAtRegistration, 8),
    (Fault::OlderEqualKept, 8),
    (Fault::PastHorizonCompared, 8),
    (Fault::HorizonTooLate, 8),
    (Fault::RingTooShort, 13_000), // needs 4,096 live partials
    (Fault::LastComparisonDropped, 8),
    (Fault::WindowBeforeRegistration, 8),
    (Fault::DueFromStart, 8),
    (Fault::WithdrawalCloses, 8),
    (Fault::WithdrawalReorders, 8),
    (Fault::ListBeforeFields, 8),
    (Fault::OneQueryTooMany, 33), // needs 33 registrations
    (Fault::RefusedLineCounted, 8),
    (Fault::LastLineDropped, 8),
    (Fault::EmptyLineSkipped, 8),
    (Fault::LineLimitTooLong, 8),
    (Fault::FormBeforeWidth, 8),
    (Fault::MinusZeroRead, 8),
];

/// The fault with this name, as `--reckon` takes it.
pub fn by_name(name: &str) -> Option<Fault> {
    let mut all = WRONG_VARIANTS.iter().map(|&(fault, _)| fault).chain([Fault::None]);
    all.find(|fault| format!("{fault:?}") == name)
}
