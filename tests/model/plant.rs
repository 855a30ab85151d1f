//! Errors that can be planted in the model. Each changes one rule of docs/CHIP.md; the generated streams must show it.

#[derive(Clone, Copy, PartialEq, Eq, Debug)]
pub enum Fault {
    Ov,
    Uv,
    Scd,
    Ocd,
}

pub const FAULTS: [Fault; 4] = [Fault::Ov, Fault::Uv, Fault::Scd, Fault::Ocd];

#[derive(Clone, Copy, PartialEq, Eq, Debug)]
pub enum Plant {
    None,
    // errors that look right (CHIP X9)
    WriteBeforeCrc,
    AddressInEveryWriteCrc,
    AddressInEveryReadCrc,
    ClearingEndsRun(Fault),
    LowByteReadAgain,
    // judging
    OverAtLine,
    UnderAtLine,
    FloorItselfLeftOut,
    UnderIgnoresFloor,
    UnderByTwoCells,
    OnlyFirstInputJudged,
    LastInputNotJudged,
    ScdLimitHigher { rsns: u8, code: u8 },
    ScdLimitLower { rsns: u8, code: u8 },
    OcdLimitHigher { rsns: u8, code: u8 },
    OcdLimitLower { rsns: u8, code: u8 },
    DelayLonger(Fault, u8),
    DelayShorter(Fault, u8),
    DelayDisForgotten(Fault),
    DelayDisForScansOnly,
    SetBitStopsRun(Fault),
    ShorterDelayActsAtOnce,
    SilentScanKeepsRuns,
    SilentScanEndsCurrentRuns,
    SilentScanStores,
    AdcOffEndsRuns,
    ThresholdWriteEndsRuns,
    RefusedScanEndsRuns,
    RefusedSenseEndsRuns,
    RunsOutliveShip,
    TripAtOldSetting,
    BatRoundedUp,
    BatOfFirstFive,
    TempWithAdcOff,
    SenseNegativeMeansCharge,
    // repeated ticks
    TicksCountedOnce,
    TicksOneFewer,
    TicksOneMore,
    TicksEndRuns,
    RefusedTicksEndRuns,
    NoTicksTaken,
    TicksMostLower,
    TicksMostHigher,
    TicksTakenAsleep,
    SoakLowHalfOnly,
    SoakMostLower,
    SoakMostHigher,
    SoakMostOfTicks,
    // drives and status
    OvPutsOffDischarge,
    OvLeavesCharge,
    UvPutsOffCharge,
    UvLeavesDischarge,
    OcdLeavesDischarge,
    ScdLeavesDischarge,
    OverrideLeavesCharge,
    OverrideLeavesDischarge,
    XreadyLeavesCharge,
    XreadyLeavesDischarge,
    CcReadyPutsOff,
    PinWithStatusUp,
    PinOverCcReady,
    PinTakenForLevel,
    LevelOutlivesShip,
    LevelAtItsEventOnly,
    LevelNotAtBusEvents,
    LevelWithStatusUp,
    LevelLeavesCharge,
    LevelLeavesDischarge,
    LettingGoClears,
    LevelTakenAsleep,
    XreadyKeepsBalance,
    XreadyClearsBalanceOnce,
    XreadyResetsSettings,
    ClearingReturnsCharge,
    ChargeDespite(u8),
    DischargeDespite(u8),
    ChargeHeldByUv,
    DischargeHeldByOv,
    OneshotDespiteReady,
    OneshotDespiteEnable,
    OneshotNotDropped,
    WaitingOneshotKept,
    CountWithoutEnable,
    CountIgnoresOneshot,
    StatusWriteStores,
    ClearingAlsoByZeros,
    CcReadyNotInAlert,
    // registers
    LoadDespiteCharge,
    LoadOutlivesPor,
    LoadInverted,
    ScanDropsLoad,
    CountDropsLoad,
    BalanceOfLackingInputs,
    BalanceAllBits,
    CcCfgAllBits,
    ProtectAllBits,
    ResetOvTrip,
    ResetUvTrip,
    ResetCcCfg,
    ResetAdcOff,
    CellsWritable,
    OffsetWritable,
    GainBitsSwapped,
    LowByteFirst,
    // modes
    BootResets,
    BootIdlesBus,
    BootEndsRuns,
    PorKeepsPointer,
    PorStaysAwake,
    ShipByTwoAlone,
    ShipAfterTwiceOne,
    OtherWriteDropsPair,
    PairNeverShown,
    PairZeroKeepsOne,
    ShippingByteRefused,
    ShippingGrowsPointer,
    StartAsleepCounts,
    // bus
    PointerForgottenAtStop,
    PointerGrowsOnWrongCrc,
    WrongCrcStaysInFrame,
    WrongCrcAcknowledged,
    PointerStopsAtEnd,
    StartKeepsWaitingByte,
    StopKeepsFrame,
    CrcStartsAgain,
    WriteAddressInReadCrc,
    UnmatchedStaysOpen,
    InOutsideReadIdles,
    RefusedByteDoesNotGrow,
    UnackedKeepsReading,
    OutWhileReadingKept,
    LowByteOutlivesStart,
    LowByteKeptBelowPairs,
    OwedCrcOfByteNow,
    ConditionsAtDataByte,
    CrcBytePassesForData,
    // records
    SecondSetupTaken,
    UnknownKindEndsStream,
    KindsDecimal,
    AsleepBeforeRange,
    AsleepBeforeLength,
    BusRefusedAsleep,
    BootRefusedAwake,
    SenseEndsLeftOut,
    RangeNotChecked,
    CutAfterKind,
    RefusedFirstGoesOn,
    FlagOnRefused,
    CutEntryBlank,
    KindLowByteOnly,
    LengthLowByteOnly,
    // wiring
    WiringLostInShip,
    WiringTakenLate,
    SecondWiringTaken,
    RefusedEndsWiring,
    RowBeforePlace,
    RowsOfAnyPart,
    ShortedNotJudged,
    ReadingOfShorted,
    WrongRow { part: u8, cells: u8 },
    // connected
    WiredBelowFloorLeftOut,
    UnwiredBelowFloorRead,
    FloorNotConnected,
    NoCellRead,
    // readings and conversions
    ReadingOffsetUnsigned,
    ReadingCcUnsigned,
    ReadingAllInputs,
    ReadingAsleepGiven,
    ReadingRefusedWhereCut,
    GainFrom343,
    ThermistorLimit,
    ThermistorNearest,
    DieLimit,
    OvWindowWider,
    UvWindowNarrower,
    CodeOffsetAdded,
    // cells to bleed and words
    BleedLastOfEquals,
    BleedHighestFirst,
    BleedGroupsJoined,
    BleedNeighboursTogether,
    BleedMarginPassed,
    BleedMarginCut,
    BleedLowestOfAll,
    BleedAsleepFirst,
    AskedBeforeChip,
    CurrentRoundedDown,
    CurrentUnsigned,
    WordCut,
    TemperatureDespiteSelect,
    ResistorForCurrentOnly,
    PecWithoutReadAddress,
    PecWithoutCommand,
    // seasons
    SilentScanCounted,
    SeasonEndsAtPor,
    SeasonLastOfEquals,
    SeasonOffsetOnce,
    SeasonBelowFloorCounted,
    SeasonOfInputs,
    SeasonScansFromNought,
    // why a bit rose, and since when a drive is off
    WhyFirstLate,
    WhyFirstEarly,
    WhyWholeRun,
    WhyTicksOnceARecord,
    WhyFromRecordsEnd,
    WhyHighestInput,
    WhyFloorUnseen,
    WhyValueDrawn,
    WhyLimitNow,
    WhyDelayNow,
    WhyFirstRise,
    WhyRefusedLeftOut,
    WhyLastLeftOut,
    WhyBitFirst,
    WhyAlwaysPin,
    OffBitsOfControl,
    OffSinceFirst,
    OffNeverNought,
    OffHeldByAll,
    OffHeldThen,
    OffHeldByBoth,
}

use Plant::*;

/// The errors of `asks.rs` and `season.rs`, which need no stream played anew.
#[rustfmt::skip]
pub const ASKS: &[Plant] = &[
    BleedLastOfEquals, BleedHighestFirst, BleedGroupsJoined, BleedNeighboursTogether, BleedMarginPassed, BleedMarginCut,
    BleedLowestOfAll, BleedAsleepFirst, AskedBeforeChip, CurrentRoundedDown, CurrentUnsigned, WordCut,
    TemperatureDespiteSelect, ResistorForCurrentOnly, PecWithoutReadAddress, PecWithoutCommand,
    SeasonLastOfEquals, SeasonOffsetOnce, SeasonBelowFloorCounted, SeasonOfInputs, SeasonScansFromNought,
];

/// The errors of `rises.rs`, in what is said of a chip that has none.
#[rustfmt::skip]
pub const RISES: &[Plant] = &[
    WhyFirstLate, WhyFirstEarly, WhyWholeRun, WhyTicksOnceARecord, WhyFromRecordsEnd, WhyHighestInput, WhyFloorUnseen, WhyValueDrawn, WhyLimitNow,
    WhyDelayNow, WhyFirstRise, WhyRefusedLeftOut, WhyLastLeftOut, WhyBitFirst, WhyAlwaysPin, OffBitsOfControl, OffSinceFirst, OffNeverNought,
    OffHeldByAll, OffHeldThen, OffHeldByBoth,
];

#[rustfmt::skip]
const PLAIN: &[Plant] = &[
    WriteBeforeCrc, AddressInEveryWriteCrc, AddressInEveryReadCrc, LowByteReadAgain,
    OverAtLine, UnderAtLine, FloorItselfLeftOut, UnderIgnoresFloor, UnderByTwoCells, OnlyFirstInputJudged,
    LastInputNotJudged, DelayDisForScansOnly, ShorterDelayActsAtOnce, SilentScanKeepsRuns, SilentScanEndsCurrentRuns,
    SilentScanStores, AdcOffEndsRuns, ThresholdWriteEndsRuns, RefusedScanEndsRuns, RefusedSenseEndsRuns,
    RunsOutliveShip, TripAtOldSetting, BatRoundedUp, BatOfFirstFive, TempWithAdcOff, SenseNegativeMeansCharge,
    TicksCountedOnce, TicksOneFewer, TicksOneMore, TicksEndRuns, RefusedTicksEndRuns, NoTicksTaken, TicksMostLower,
    TicksMostHigher, TicksTakenAsleep, SoakLowHalfOnly, SoakMostLower, SoakMostHigher, SoakMostOfTicks,
    OvPutsOffDischarge, OvLeavesCharge, UvPutsOffCharge, UvLeavesDischarge, OcdLeavesDischarge, ScdLeavesDischarge,
    OverrideLeavesCharge, OverrideLeavesDischarge, XreadyLeavesCharge, XreadyLeavesDischarge, CcReadyPutsOff,
    PinWithStatusUp, PinOverCcReady, PinTakenForLevel, LevelOutlivesShip, LevelAtItsEventOnly, LevelNotAtBusEvents, LevelWithStatusUp,
    LevelLeavesCharge, LevelLeavesDischarge, LettingGoClears, LevelTakenAsleep, XreadyKeepsBalance, XreadyClearsBalanceOnce,
    XreadyResetsSettings, ClearingReturnsCharge, ChargeHeldByUv, DischargeHeldByOv,
    OneshotDespiteReady, OneshotDespiteEnable, OneshotNotDropped, WaitingOneshotKept, CountWithoutEnable, CountIgnoresOneshot,
    StatusWriteStores, ClearingAlsoByZeros, CcReadyNotInAlert,
    LoadDespiteCharge, LoadOutlivesPor, LoadInverted, ScanDropsLoad, CountDropsLoad, BalanceOfLackingInputs, BalanceAllBits,
    CcCfgAllBits, ProtectAllBits,
    ResetOvTrip, ResetUvTrip, ResetCcCfg, ResetAdcOff, CellsWritable, OffsetWritable, GainBitsSwapped, LowByteFirst,
    BootResets, BootIdlesBus, BootEndsRuns, PorKeepsPointer, PorStaysAwake, ShipByTwoAlone, ShipAfterTwiceOne,
    OtherWriteDropsPair, PairNeverShown, PairZeroKeepsOne, ShippingByteRefused, ShippingGrowsPointer, StartAsleepCounts,
    PointerForgottenAtStop, PointerGrowsOnWrongCrc, WrongCrcStaysInFrame, WrongCrcAcknowledged, PointerStopsAtEnd,
    StartKeepsWaitingByte, StopKeepsFrame, CrcStartsAgain, WriteAddressInReadCrc, UnmatchedStaysOpen,
    InOutsideReadIdles, RefusedByteDoesNotGrow, UnackedKeepsReading, OutWhileReadingKept, LowByteOutlivesStart,
    LowByteKeptBelowPairs, OwedCrcOfByteNow, ConditionsAtDataByte, CrcBytePassesForData,
    SecondSetupTaken, UnknownKindEndsStream, KindsDecimal, AsleepBeforeRange, AsleepBeforeLength, BusRefusedAsleep,
    BootRefusedAwake, SenseEndsLeftOut, RangeNotChecked, CutAfterKind, RefusedFirstGoesOn, FlagOnRefused, CutEntryBlank,
    KindLowByteOnly, LengthLowByteOnly,
    WiringLostInShip, WiringTakenLate, SecondWiringTaken, RefusedEndsWiring, RowBeforePlace, RowsOfAnyPart, ShortedNotJudged,
    ReadingOfShorted, WiredBelowFloorLeftOut, UnwiredBelowFloorRead, FloorNotConnected, NoCellRead,
    ReadingOffsetUnsigned, ReadingCcUnsigned, ReadingAllInputs, ReadingAsleepGiven, ReadingRefusedWhereCut,
    GainFrom343, ThermistorLimit, ThermistorNearest, DieLimit, OvWindowWider, UvWindowNarrower, CodeOffsetAdded,
    SilentScanCounted, SeasonEndsAtPor,
];

/// Every plant, those over a table once for each of its places.
pub fn all() -> Vec<Plant> {
    let mut plants = PLAIN.to_vec();
    for rsns in 0..2 {
        for code in 0..16 {
            plants.push(OcdLimitHigher { rsns, code });
            plants.push(OcdLimitLower { rsns, code });
            if code < 8 {
                plants.push(ScdLimitHigher { rsns, code });
                plants.push(ScdLimitLower { rsns, code });
            }
        }
    }
    for fault in FAULTS {
        plants.push(ClearingEndsRun(fault));
        plants.push(SetBitStopsRun(fault));
        for code in 0..if fault == Fault::Ocd { 8 } else { 4 } {
            plants.push(DelayLonger(fault, code));
            plants.push(DelayShorter(fault, code));
        }
    }
    plants.push(DelayDisForgotten(Fault::Ov));
    plants.push(DelayDisForgotten(Fault::Uv));
    for (part, rows) in [(1, 3..=5), (2, 6..=10), (3, 11..=15)] {
        plants.extend(rows.map(|cells| WrongRow { part, cells }));
    }
    for bit in [2, 4, 5] {
        plants.push(ChargeDespite(bit));
    }
    for bit in [0, 1, 3, 4, 5] {
        plants.push(DischargeDespite(bit));
    }
    plants
}
