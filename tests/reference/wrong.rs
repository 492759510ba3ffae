//! Mistakes that can be switched on. The self-test switches on one at a time and asks that the comparisons find it.

use std::cell::Cell;

#[derive(Clone, Copy, PartialEq, Eq, Debug)]
pub enum Wrong {
    Nothing,
    /// Only rows 0 to 8 of a block field are put right.
    RowsZeroToEightOnly,
    /// Slot types are taken at a distance of 4.
    FourWrongBitsTaken,
    /// A partial header's count becomes the message's.
    PartialCountTakenForMessage,
    /// A partial header's pad is tested against its own count.
    PartialPadTested,
    /// A block's transaction is looked for before its check is tested.
    TransactionBeforeCheck,
    /// A completed message is handed on again when a block of it is repeated.
    HandsOnAgainAtRepeat,
    /// The blocks stay after a bad message check.
    KeepsBlocksAfterBad,
    /// A completed transaction is open after restoring.
    PhaseNotRestored,
    /// The last block of a number counts, not the first.
    SecondBlockWins,
    /// The two stamps of a stored form are not compared.
    StampsNotCompared,
    /// Octets of blocks not held are not asked to be zero.
    StoreNotTested,
    /// The numbers of a stored form come before the size of what an event is given.
    FormBeforeSize,
    /// Lent memory is cleared before the checks.
    ClearsLentMemory,
    /// The gateway leaves out leftover octets.
    LeftoverNotCounted,
    /// The replay is silent about a record cut short.
    CutRecordSilent,
    /// The index that the gateway prints begins again after 4,999.
    IndexModulo5000,
    /// The index of a delivery is a number of 16 bits.
    IndexInSixteenBits,
    /// A source is printed with its lowest octet first.
    SourceReversed,
    /// A delivery is printed without its SAP.
    SapLeftOut,
    /// A delivery has octet 1 of the header for its SAP.
    SapWithPad,
    /// A delivery has the index of its header, not of its last block.
    IndexOfHeader,
    /// A message is printed again when its header is repeated.
    PrintedAgainAtRepeat,
    /// A program runs although it is given an argument.
    ArgumentsIgnored,
    /// An input that can't be read is taken for one that ends.
    UnreadableTakenForEnd,
    /// A program goes on although its output can't be written.
    UnwritableIgnored,
    /// A program stops without a word.
    StopsSilent,
}

/// Those of the library.
pub const OF_LIBRARY: [Wrong; 13] = [
    Wrong::RowsZeroToEightOnly,
    Wrong::FourWrongBitsTaken,
    Wrong::PartialCountTakenForMessage,
    Wrong::PartialPadTested,
    Wrong::TransactionBeforeCheck,
    Wrong::HandsOnAgainAtRepeat,
    Wrong::KeepsBlocksAfterBad,
    Wrong::PhaseNotRestored,
    Wrong::SecondBlockWins,
    Wrong::StampsNotCompared,
    Wrong::StoreNotTested,
    Wrong::FormBeforeSize,
    Wrong::ClearsLentMemory,
];

/// Those of the programs alone.
pub const OF_PROGRAMS: [Wrong; 13] = [
    Wrong::LeftoverNotCounted,
    Wrong::CutRecordSilent,
    Wrong::IndexModulo5000,
    Wrong::IndexInSixteenBits,
    Wrong::SourceReversed,
    Wrong::SapLeftOut,
    Wrong::SapWithPad,
    Wrong::IndexOfHeader,
    Wrong::PrintedAgainAtRepeat,
    Wrong::ArgumentsIgnored,
    Wrong::UnreadableTakenForEnd,
    Wrong::UnwritableIgnored,
    Wrong::StopsSilent,
];

thread_local! {
    static SWITCH: Cell<Wrong> = const { Cell::new(Wrong::Nothing) };
}

/// Is this mistake switched on?
pub fn wrong(mistake: Wrong) -> bool {
    SWITCH.with(|switch| switch.get() == mistake)
}

/// Run with this mistake switched on.
pub fn with<T>(mistake: Wrong, run: impl FnOnce() -> T) -> T {
    let before = SWITCH.with(|switch| switch.replace(mistake));
    let result = run();
    SWITCH.with(|switch| switch.set(before));
    result
}
