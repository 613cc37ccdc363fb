//! The comparison itself is tried: between the reference and itself it finds nothing, and it finds each of these faults,
//! or the fault stops the program.

use crate::compared::{Compared, CoverTotals, CrowdTotals, MinimumTotals, OwnTotals, Totals};
use crate::faulty::Faulty;
use crate::numbers::Numbers;
use crate::sequences::{covers, crowd, delivery, own, sequence, Size};
use reference::{GRANT, OPERATOR_OFF, OPERATOR_ON, RIDE_IN, RIDE_OUT, WITHDRAWAL};
use std::os::unix::process::ExitStatusExt;
use std::process::Command;

/// The parts by number, in their order.
pub const OPERATORS: usize = 0;
pub const RIDES: usize = 1;
pub const STAMPS: usize = 2;
pub const REVISIONS: usize = 3;
pub const INDEX: usize = 4;
pub const PRESENCE_STAMPS: usize = 5;
pub const PRESENCE_REVISIONS: usize = 6;
pub const PRESENCE: usize = 7;

/// A `usize` is the number of a part.
#[derive(Clone, Copy, Debug, PartialEq, Eq)]
pub enum Fault {
    None,
    BuildRefuses,
    BuildIndex,
    BuildWritesThoughRefused,
    /// A part is not written.
    BuildKept(usize),
    /// The places of a part past those needed are zeroed too.
    BuildPastNeeded(usize),
    /// A part that is too short is not refused.
    BuildShort(usize),
    /// The index is that of the pairs that count by the words of presence that came in.
    BuildCountsAsCame,
    QueryMark,
    QueryCount,
    /// Operators are asked for a level of row 1 where alpha is 0.
    QueryAlphaZeroIsOne,
    /// Rides are asked for level 1 where beta is 0.
    QueryBetaZeroIsOne,
    /// Where there is no row alpha, row 1 is read.
    QueryMissingRowIsOne,
    /// 11 is given where a limit is 0.
    QueryZeroRefused,
    /// The words of presence are read otherwise.
    QueryPresence(Reading),
    /// Whoever is off or out is marked where its own limit is 0.
    QueryZeroMarksAbsent,
    /// Too short words of presence are not refused.
    QueryShortPresence,
    /// Rides are asked for the minimums of the last peel or cover.
    QueryUsesMinimums,
    PeelStep,
    PeelMark,
    /// Operators fall short of 1 where alpha is 0.
    PeelAlphaZeroIsOne,
    /// Rides fall short of 1 where beta is 0.
    PeelBetaZeroIsOne,
    /// 11 is given where a limit is 0.
    PeelZeroRefused,
    /// The words of presence are read otherwise.
    PeelPresence(Reading),
    /// Whoever is off or out doesn't fall short of 0.
    PeelZeroKeepsAbsent,
    /// The marks of those who are off or out are cleared without a step.
    PeelAbsentCleared,
    /// Those who are off or out go before the others.
    PeelAbsentFirst,
    /// Rides that are out go before operators.
    PeelRidesOutFirst,
    /// The marks of those who are off or out are not looked at for 12.
    PeelAbsentMarkUnread,
    /// Too short words of presence are not refused.
    PeelShortPresence,
    /// The minimums of a peel are read or tested otherwise.
    PeelMinimums(WrongMinimums),
    MessageStamp,
    MessageDiffer,
    MessagePairs,
    /// The larger revision is later, and at equal revisions the larger stamp.
    MessageRevisionFirst,
    /// At equal stamps and revisions the lower of these two kinds is later.
    MessageWinsTie([u16; 2]),
    /// At equal stamps the revision isn't looked at.
    MessageRevisionUnread,
    /// The same, for an operator or ride.
    MessagePresenceRevisionUnread,
    /// The low bytes of revisions are compared.
    MessageRevisionLowByte,
    /// At equal stamps and revisions a word of presence other than 0 is on or in.
    MessageTieNotZero,
    /// The last of a ride is that of the operator with its number.
    MessageRideLastOfOperator,
    /// The last of an operator or ride is that of the pair (operator, ride).
    MessageLastOfPair,
    /// 8, 9, 14, 15 and 10 are given in another order, or one of them is not given.
    MessageOrder(&'static [u16]),
    /// 7 is given for kinds above 2.
    MessageSixKindsRefused,
    /// 8 is given for a field that the kind doesn't use.
    MessageUnusedOutOfRange,
    /// 15 is given where a field that the kind doesn't use is out of range, and not for others.
    MessageUnusedInRangeTaken,
    /// 14 is given for revisions from 257.
    MessageRevision256Taken,
    /// 14 is given for revisions from 255.
    MessageRevision255Refused,
    /// 14 is given where the stored revision is above 255.
    MessageStoredRevisionRefused,
    /// 6 is given for pairs that count alone.
    MessageSixOfCounting,
    /// A taken message's word is not stored in a part.
    MessageKept(usize),
    /// A taken message's revision is stored one place on.
    MessageRevisionNextPlace,
    /// A ride's stamp, revision and word are stored at the place of the operator with its number.
    MessageRideStoredAtOperator,
    /// Words of presence other than 0 and 1 are made 0.
    MessageOtherWordsChanged,
    /// For the index the words of presence are read otherwise.
    MessagePresence(Reading),
    /// Pairs that don't count are taken out of the pair arrays.
    MessagePairsDropped,
    /// A message for an operator or ride leaves the words past the pairs.
    MessagePresenceTailKept,
    /// A message for an operator or ride leaves the index.
    MessagePresenceIndexKept,
    /// A byte beside a part is written.
    MessageWritesBeside(usize),
    /// A part that is too short is not refused.
    MessageShort(usize),
    ListAnswer,
    ListNumber,
    /// The list itself gives this number where its first message has it.
    ListGives(u16),
    /// A part is left as it was.
    ListKept(usize),
    /// For the index the words of presence are read otherwise.
    ListPresence(Reading),
    /// A part that is too short is not refused.
    ListShort(usize),
    /// A message of the other kind is previewed.
    PreviewOtherKind,
    PreviewDifferThoughRefused,
    PreviewWritesThoughRefused,
    PreviewHeadThoughRefused,
    /// The spare head keeps its operators.
    PreviewOperatorsKept,
    /// The spare head keeps its rides.
    PreviewRidesKept,
    /// The spare head gets the board's pair count before the message.
    PreviewPairsBefore,
    /// The spare pair arrays keep their words from the pair count on.
    PreviewTailKept,
    /// Of a spare part only the message's own word is written.
    PreviewKept(usize),
    /// A spare part gets the board's before the message.
    PreviewBefore(usize),
    /// A message is previewed as if its revision were 0.
    PreviewRevisionUnread,
    /// The spare index is that of the pairs that count by the words of presence that the spare memory came with.
    PreviewCountsAsCame,
    /// For the index the words of presence are read otherwise.
    PreviewPresence(Reading),
    /// The words of the spare index before and after are compared.
    PreviewDifferOfSpare,
    /// The places of the board's index past those needed are copied too.
    PreviewCopiesPastNeeded,
    /// Spare memory that is too short is refused before 1 and 2.
    PreviewShortFirst,
    /// Spare memory that is too short is refused after 4.
    PreviewShortAfterFour,
    /// Spare memory that is too short is refused after all other numbers.
    PreviewShortLast,
    /// Spare memory with a part that is too short is not refused for that.
    PreviewShort(usize),
    /// 1 is given where the spare head has operators over 200.
    PreviewReadsSpareHead,
    /// A byte beside a spare part is written.
    PreviewWritesBeside(usize),
    /// A byte past the end of the spare index is written.
    PreviewWritesPastSpare,
    /// A byte of a part of the board is written.
    PreviewWrites(usize),
    /// A cover from pair arrays goes wrong.
    PairCover(Wrong),
    /// A cover over tables goes wrong.
    TableCover(Wrong),
    /// The filling of tables goes wrong.
    Tables(WrongTables),
    /// A look-up goes wrong.
    LookUp(WrongBands),
    /// The look-up of a crowd cover goes wrong.
    CrowdLookUp(WrongBands),
    /// One of 16 to 18 is given before 1 to 5 by a crowd cover.
    CrowdBeforeBoard(u16),
    /// A crowd cover goes wrong otherwise.
    CrowdCover(WrongCover),
    /// The minimums of a crowd cover are read or tested otherwise.
    CrowdMinimums(WrongMinimums),
    /// A crowd cover has the minimums of the peel or cover before it.
    CrowdOtherMinimums,
    /// A table that is refused is read as its first band where every ride has a minimum.
    CrowdTableUnread,
    /// The minimums of an own cover are read or tested otherwise.
    OwnMinimums(WrongMinimums),
    /// An own cover goes wrong otherwise.
    OwnCover(WrongCover),
}

/// What is compared in one round.
type Round = fn(&mut Compared<Faulty>, &mut Numbers);

const SEQUENCE_AND_DELIVERY: Round = |compared, numbers| {
    sequence(compared, numbers, Size::Small);
    delivery(compared, numbers, Size::Small);
};
const COVERS: Round = |compared, numbers| covers(compared, numbers, Size::Small);
const CROWD: Round = |compared, numbers| (0..4).for_each(|_| crowd(compared, numbers, Size::Small));
const OWN: Round = |compared, numbers| (0..4).for_each(|_| own(compared, numbers, Size::Small));

impl Fault {
    /// The round that finds it.
    fn round(self) -> Round {
        match self {
            Fault::PairCover(_) | Fault::TableCover(_) | Fault::Tables(_) => COVERS,
            Fault::LookUp(_) | Fault::CrowdLookUp(_) | Fault::CrowdBeforeBoard(_) | Fault::CrowdCover(_) => CROWD,
            Fault::CrowdMinimums(_) | Fault::CrowdOtherMinimums | Fault::CrowdTableUnread => CROWD,
            Fault::PeelMinimums(_) | Fault::OwnMinimums(_) | Fault::OwnCover(_) | Fault::QueryUsesMinimums => OWN,
            _ => SEQUENCE_AND_DELIVERY,
        }
    }
}

/// How a cover under a list of limits goes wrong.
#[derive(Clone, Copy, Debug, PartialEq, Eq)]
pub enum Wrong {
    /// The limit at the next place is read.
    LimitNextPlace,
    /// The limit of a ride is that of the operator with its number.
    LimitOfOperator,
    /// Of a limit the low byte is read.
    LimitLowByte,
    /// 0 is read as 1.
    LimitZeroIsOne,
    /// 65535 is no limit.
    LimitMostIsNone,
    /// Whoever has just its limit falls short.
    LimitNotEnough,
    /// Rides are not dropped.
    RidesKept,
    /// Rides and operators are swept once, by the neighbours that are marked then.
    SweptOnce,
    /// Whoever isn't here is dropped, whatever its limit.
    NotHereDropped,
    /// Whoever isn't here is kept, whatever its limit.
    NotHereKept,
    /// Pairs count, here or not.
    NotHereCounts,
    /// Whoever came in without a mark gets none.
    MarksAsCame,
    /// The marks of those in the cover are left as they came.
    MarksLeft,
    /// The marks past the nodes are cleared too.
    MarksPastNodes,
    /// A byte beside the marks is written.
    WritesBeside,
    /// A byte past the end of the marks is written.
    WritesPast,
    /// A byte of a part that is lent to be read is written.
    Writes(CoverPart),
}

/// How the filling of tables goes wrong.
#[derive(Clone, Copy, Debug, PartialEq, Eq)]
pub enum WrongTables {
    /// The last pair is missing in the table by ride.
    PairMissing,
    /// Rows of the table by operator are as wide as there are rides.
    RowsOfRides,
    /// Pairs count, here or not.
    NotHereCounts,
    /// The degrees are those of all pairs, here or not.
    DegreesOfAll,
    /// A byte beside the table by ride is written.
    WritesBeside,
    /// A byte of a part that is lent to be read is written.
    Writes(CoverPart),
}

/// What a cover, or the filling of tables, is lent to read.
#[derive(Clone, Copy, Debug, PartialEq, Eq)]
pub enum CoverPart {
    Operators,
    Rides,
    Here,
    ByOperator,
    ByRide,
    Limits,
}

/// How a look-up goes wrong.
#[derive(Clone, Copy, Debug, PartialEq, Eq)]
pub enum WrongBands {
    /// Two bands may share one guest count, the last of one and the first of the other; it is the other's.
    TouchAccepted,
    /// A band may lie inside another or equal it; then it isn't read.
    InsideAccepted,
    /// A gap at 0 is accepted; its guest counts are the lowest band's.
    GapLowAccepted,
    /// A gap at 20,000 is accepted; its guest counts are the highest band's.
    GapHighAccepted,
    /// A gap between two bands is accepted; its guest counts are the lower one's.
    GapInsideAccepted,
    /// The same of a gap of one guest count.
    GapOfOneAccepted,
    /// Bands that have 20,001 guest counts together are accepted.
    WidthsEnough,
    /// 18 is given before 17.
    GapFirst,
    /// 17 is given before 16.
    OverlapFirst,
    /// Bands past the count are read.
    PastCountRead,
    /// A gap that the band past the count closes is accepted.
    PastCountCloses,
    /// 17 is given where a band past the count shares a guest count.
    PastCountShares,
    /// A count of 9 is read as 8.
    NineIsEight,
    /// A count of 0 is read as 1.
    ZeroIsOne,
    /// Of the count the low byte is read.
    CountLowByte,
    /// A band whose first guest count exceeds its last is read the other way round.
    EndsExchanged,
    /// A band whose first guest count exceeds its last isn't read.
    EmptySkipped,
    /// A band to 20,001 is accepted.
    BandAboveAccepted,
    /// 16 is given where 20,000 is asked for.
    MostRefused,
    /// 20,001 is asked for, and 20,000 is looked up.
    AboveAccepted,
    /// 18 is given where more than 20,000 is asked for.
    AboveIsGap,
    /// The limits of the next band are given.
    LimitsOfNext,
    /// The limits of the first band are given.
    LimitsOfFirst,
    /// The first band's beta is given, with the alpha of the band.
    BetaOfFirst,
    /// Alpha is for rides and beta for operators.
    LimitsExchanged,
    /// The last guest count of a band is the next one's.
    LastExcluded,
    /// The limits of a band are given beside a refusal.
    LimitsThoughRefused,
}

/// How a crowd cover or an own cover goes wrong otherwise.
#[derive(Clone, Copy, Debug, PartialEq, Eq)]
pub enum WrongCover {
    /// 12 is given where a mark in use is not 0 or 1.
    Twelve,
    /// 11 is given where a limit is 0.
    ZeroRefused,
    /// A part that is too short is not refused.
    Short(usize),
    /// Too few marks are not refused.
    ShortMarks,
    /// The words of presence are read otherwise.
    Presence(Reading),
    /// Whoever is off or out is kept where its limit is 0.
    ZeroKeepsAbsent,
    /// Whoever has its limit of neighbours that are on or in is kept.
    DegreesAlone,
    /// Rides and operators are swept once, by the neighbours that are marked then.
    SweptOnce,
    /// Whoever came in without a mark gets none, and isn't counted as a neighbour.
    MarksAsCame,
    /// The marks past the nodes are cleared too.
    MarksPastNodes,
    /// A mark is written beside a refusal.
    MarksThoughRefused,
    /// A count is given beside a refusal.
    CountsThoughRefused,
    /// Operators are counted as rides, and rides as operators.
    CountsExchanged,
    /// A byte beside the marks is written.
    WritesBeside,
    /// A byte past the end of the marks is written.
    WritesPast,
    /// A byte of a part that is lent to be read is written.
    Writes(usize),
}

/// How the minimums of a peel or a cover are read or tested otherwise.
#[derive(Clone, Copy, Debug, PartialEq, Eq)]
pub enum WrongMinimums {
    /// They are read and tested as they should be.
    None,
    /// No minimum is read.
    Unread,
    /// A minimum smaller than beta isn't used: the limit is the larger of both.
    SmallerUnused,
    /// A minimum larger than beta isn't used.
    LargerUnused,
    /// The limit is the smaller of beta and the minimum, 0 included.
    SmallerOfBoth,
    /// The limit is the sum of both.
    Added,
    /// A minimum of 0 is a limit of 0.
    ZeroIsLimit,
    /// Where beta is 0 no minimum is read.
    NoneUnderBetaZero,
    /// Of a minimum the low byte is read.
    LowByte,
    /// 65535 is none.
    MostIsNone,
    /// A minimum above the number of operators is none.
    TooManyIsNone,
    /// A ride that has just its minimum falls short.
    NotEnough,
    /// The minimum at the next place is read.
    NextPlace,
    /// The minimum at the place before is read, and the first ride has none.
    PlaceBefore,
    /// Minimums are read as if they lay as marks do.
    PlaceAsMarks,
    /// The first ride's minimum is that of all.
    OfFirst,
    /// The last ride's minimum isn't read.
    LastUnread,
    /// They are the operators', and the rides have none.
    OfOperators,
    /// They are the operators' too.
    OfOperatorsToo,
    /// A ride that is out is in where it has a minimum.
    OutIsIn,
    /// A list that is too short is not refused; rides past its end have none.
    ShortAccepted,
    /// A list that is too short is refused before 1 and 2.
    ShortFirst,
    /// A list that is too short is refused after this number.
    ShortAfter(u16),
    /// 3 is given where the list is longer than the rides.
    LongRefused,
    /// 3 is given where the list is shorter than operators and rides together.
    NodesNeeded,
    /// This number is given where a minimum is above 200.
    LargeRefused(u16),
    /// A byte of the list is written.
    Written,
    /// The word past the end of the list is read.
    ReadPast,
}

/// How words of presence are read where it isn't as they should be.
#[derive(Clone, Copy, Debug, PartialEq, Eq)]
pub enum Reading {
    /// All operators are on.
    OffIsOn,
    /// All rides are in.
    OutIsIn,
    /// Every word but 0 is on or in.
    NotZero,
    /// A low byte of 1 is on or in.
    LowByte,
}

/// Those that are put into one call.
const FAULTS: &[Fault] = &[
    Fault::BuildRefuses,
    Fault::BuildIndex,
    Fault::BuildWritesThoughRefused,
    Fault::BuildKept(REVISIONS),
    Fault::BuildKept(PRESENCE_STAMPS),
    Fault::BuildKept(PRESENCE_REVISIONS),
    Fault::BuildKept(PRESENCE),
    Fault::BuildPastNeeded(REVISIONS),
    Fault::BuildPastNeeded(PRESENCE_STAMPS),
    Fault::BuildPastNeeded(PRESENCE_REVISIONS),
    Fault::BuildPastNeeded(PRESENCE),
    Fault::BuildShort(REVISIONS),
    Fault::BuildShort(PRESENCE_STAMPS),
    Fault::BuildShort(PRESENCE_REVISIONS),
    Fault::BuildShort(PRESENCE),
    Fault::BuildCountsAsCame,
    Fault::QueryMark,
    Fault::QueryCount,
    Fault::QueryAlphaZeroIsOne,
    Fault::QueryBetaZeroIsOne,
    Fault::QueryMissingRowIsOne,
    Fault::QueryZeroRefused,
    Fault::QueryPresence(Reading::OffIsOn),
    Fault::QueryPresence(Reading::OutIsIn),
    Fault::QueryPresence(Reading::NotZero),
    Fault::QueryPresence(Reading::LowByte),
    Fault::QueryZeroMarksAbsent,
    Fault::QueryShortPresence,
    Fault::QueryUsesMinimums,
    Fault::PeelStep,
    Fault::PeelMark,
    Fault::PeelAlphaZeroIsOne,
    Fault::PeelBetaZeroIsOne,
    Fault::PeelZeroRefused,
    Fault::PeelPresence(Reading::OffIsOn),
    Fault::PeelPresence(Reading::OutIsIn),
    Fault::PeelPresence(Reading::NotZero),
    Fault::PeelPresence(Reading::LowByte),
    Fault::PeelZeroKeepsAbsent,
    Fault::PeelAbsentCleared,
    Fault::PeelAbsentFirst,
    Fault::PeelRidesOutFirst,
    Fault::PeelAbsentMarkUnread,
    Fault::PeelShortPresence,
    Fault::PeelMinimums(WrongMinimums::ShortAfter(12)),
    Fault::PeelMinimums(WrongMinimums::LargeRefused(11)),
    Fault::MessageStamp,
    Fault::MessageDiffer,
    Fault::MessagePairs,
    Fault::MessageRevisionFirst,
    Fault::MessageWinsTie([GRANT, WITHDRAWAL]),
    Fault::MessageWinsTie([OPERATOR_ON, OPERATOR_OFF]),
    Fault::MessageWinsTie([RIDE_IN, RIDE_OUT]),
    Fault::MessageRevisionUnread,
    Fault::MessagePresenceRevisionUnread,
    Fault::MessageRevisionLowByte,
    Fault::MessageTieNotZero,
    Fault::MessageRideLastOfOperator,
    Fault::MessageLastOfPair,
    // 14 after 10; 14 before 7; 15 before 14; 15 before 9; 15 before 8; 15 after 10; no 15.
    Fault::MessageOrder(&[7, 8, 9, 15, 10, 14]),
    Fault::MessageOrder(&[14, 7, 8, 9, 15, 10]),
    Fault::MessageOrder(&[7, 8, 9, 15, 14, 10]),
    Fault::MessageOrder(&[7, 8, 15, 9, 14, 10]),
    Fault::MessageOrder(&[7, 15, 8, 9, 14, 10]),
    Fault::MessageOrder(&[7, 8, 9, 14, 10, 15]),
    Fault::MessageOrder(&[7, 8, 9, 14, 10]),
    Fault::MessageSixKindsRefused,
    Fault::MessageUnusedOutOfRange,
    Fault::MessageUnusedInRangeTaken,
    Fault::MessageRevision256Taken,
    Fault::MessageRevision255Refused,
    Fault::MessageStoredRevisionRefused,
    Fault::MessageSixOfCounting,
    Fault::MessageKept(REVISIONS),
    Fault::MessageKept(PRESENCE_STAMPS),
    Fault::MessageKept(PRESENCE_REVISIONS),
    Fault::MessageKept(PRESENCE),
    Fault::MessageRevisionNextPlace,
    Fault::MessageRideStoredAtOperator,
    Fault::MessageOtherWordsChanged,
    Fault::MessagePresence(Reading::OffIsOn),
    Fault::MessagePresence(Reading::OutIsIn),
    Fault::MessagePresence(Reading::NotZero),
    Fault::MessagePresence(Reading::LowByte),
    Fault::MessagePairsDropped,
    Fault::MessagePresenceTailKept,
    Fault::MessagePresenceIndexKept,
    Fault::MessageWritesBeside(REVISIONS),
    Fault::MessageWritesBeside(PRESENCE_STAMPS),
    Fault::MessageWritesBeside(PRESENCE_REVISIONS),
    Fault::MessageWritesBeside(PRESENCE),
    Fault::MessageShort(REVISIONS),
    Fault::MessageShort(PRESENCE_STAMPS),
    Fault::MessageShort(PRESENCE_REVISIONS),
    Fault::MessageShort(PRESENCE),
    Fault::ListAnswer,
    Fault::ListNumber,
    Fault::ListGives(14),
    Fault::ListGives(15),
    Fault::ListKept(REVISIONS),
    Fault::ListKept(PRESENCE_STAMPS),
    Fault::ListKept(PRESENCE_REVISIONS),
    Fault::ListKept(PRESENCE),
    Fault::ListPresence(Reading::OffIsOn),
    Fault::ListPresence(Reading::OutIsIn),
    Fault::ListShort(REVISIONS),
    Fault::ListShort(PRESENCE_STAMPS),
    Fault::ListShort(PRESENCE_REVISIONS),
    Fault::ListShort(PRESENCE),
    Fault::PreviewOtherKind,
    Fault::PreviewDifferThoughRefused,
    Fault::PreviewWritesThoughRefused,
    Fault::PreviewHeadThoughRefused,
    Fault::PreviewOperatorsKept,
    Fault::PreviewRidesKept,
    Fault::PreviewPairsBefore,
    Fault::PreviewTailKept,
    Fault::PreviewKept(STAMPS),
    Fault::PreviewKept(REVISIONS),
    Fault::PreviewKept(INDEX),
    Fault::PreviewKept(PRESENCE_STAMPS),
    Fault::PreviewKept(PRESENCE_REVISIONS),
    Fault::PreviewKept(PRESENCE),
    Fault::PreviewBefore(REVISIONS),
    Fault::PreviewBefore(PRESENCE_STAMPS),
    Fault::PreviewBefore(PRESENCE_REVISIONS),
    Fault::PreviewBefore(PRESENCE),
    Fault::PreviewRevisionUnread,
    Fault::PreviewCountsAsCame,
    Fault::PreviewPresence(Reading::OffIsOn),
    Fault::PreviewPresence(Reading::OutIsIn),
    Fault::PreviewDifferOfSpare,
    Fault::PreviewCopiesPastNeeded,
    Fault::PreviewShortFirst,
    Fault::PreviewShortAfterFour,
    Fault::PreviewShortLast,
    Fault::PreviewShort(REVISIONS),
    Fault::PreviewShort(INDEX),
    Fault::PreviewShort(PRESENCE_STAMPS),
    Fault::PreviewShort(PRESENCE_REVISIONS),
    Fault::PreviewShort(PRESENCE),
    Fault::PreviewReadsSpareHead,
    Fault::PreviewWritesBeside(STAMPS),
    Fault::PreviewWritesBeside(PRESENCE_STAMPS),
    Fault::PreviewWritesBeside(PRESENCE_REVISIONS),
    Fault::PreviewWritesBeside(PRESENCE),
    Fault::PairCover(Wrong::LimitNextPlace),
    Fault::PairCover(Wrong::LimitOfOperator),
    Fault::PairCover(Wrong::LimitLowByte),
    Fault::PairCover(Wrong::LimitZeroIsOne),
    Fault::PairCover(Wrong::LimitMostIsNone),
    Fault::PairCover(Wrong::LimitNotEnough),
    Fault::PairCover(Wrong::RidesKept),
    Fault::PairCover(Wrong::SweptOnce),
    Fault::PairCover(Wrong::NotHereDropped),
    Fault::PairCover(Wrong::NotHereKept),
    Fault::PairCover(Wrong::NotHereCounts),
    Fault::PairCover(Wrong::MarksAsCame),
    Fault::PairCover(Wrong::MarksLeft),
    Fault::PairCover(Wrong::MarksPastNodes),
    Fault::PairCover(Wrong::WritesBeside),
    Fault::TableCover(Wrong::LimitNextPlace),
    Fault::TableCover(Wrong::LimitOfOperator),
    Fault::TableCover(Wrong::LimitLowByte),
    Fault::TableCover(Wrong::LimitZeroIsOne),
    Fault::TableCover(Wrong::LimitMostIsNone),
    Fault::TableCover(Wrong::LimitNotEnough),
    Fault::TableCover(Wrong::RidesKept),
    Fault::TableCover(Wrong::SweptOnce),
    Fault::TableCover(Wrong::MarksAsCame),
    Fault::TableCover(Wrong::MarksLeft),
    Fault::TableCover(Wrong::MarksPastNodes),
    Fault::TableCover(Wrong::WritesBeside),
    Fault::Tables(WrongTables::PairMissing),
    Fault::Tables(WrongTables::RowsOfRides),
    Fault::Tables(WrongTables::NotHereCounts),
    Fault::Tables(WrongTables::DegreesOfAll),
    Fault::Tables(WrongTables::WritesBeside),
    Fault::LookUp(WrongBands::LimitsThoughRefused),
    Fault::CrowdBeforeBoard(16),
    Fault::CrowdBeforeBoard(17),
    Fault::CrowdBeforeBoard(18),
    Fault::CrowdMinimums(WrongMinimums::ShortAfter(16)),
    Fault::CrowdMinimums(WrongMinimums::ShortAfter(17)),
    Fault::CrowdMinimums(WrongMinimums::ShortAfter(18)),
    Fault::CrowdMinimums(WrongMinimums::LargeRefused(16)),
    Fault::CrowdOtherMinimums,
    Fault::CrowdTableUnread,
    Fault::OwnMinimums(WrongMinimums::LargeRefused(16)),
];

/// Each is put into a peel, an own cover and a crowd cover.
const WRONG_MINIMUMS: &[WrongMinimums] = &[
    WrongMinimums::Unread,
    WrongMinimums::SmallerUnused,
    WrongMinimums::LargerUnused,
    WrongMinimums::SmallerOfBoth,
    WrongMinimums::Added,
    WrongMinimums::ZeroIsLimit,
    WrongMinimums::NoneUnderBetaZero,
    WrongMinimums::LowByte,
    WrongMinimums::MostIsNone,
    WrongMinimums::TooManyIsNone,
    WrongMinimums::NotEnough,
    WrongMinimums::NextPlace,
    WrongMinimums::PlaceBefore,
    WrongMinimums::PlaceAsMarks,
    WrongMinimums::OfFirst,
    WrongMinimums::LastUnread,
    WrongMinimums::OfOperators,
    WrongMinimums::OfOperatorsToo,
    WrongMinimums::OutIsIn,
    WrongMinimums::ShortAccepted,
    WrongMinimums::ShortFirst,
    WrongMinimums::ShortAfter(4),
    WrongMinimums::ShortAfter(5),
    WrongMinimums::LongRefused,
    WrongMinimums::NodesNeeded,
    WrongMinimums::LargeRefused(3),
];

/// Each is put into a look-up and a crowd cover.
const WRONG_BANDS: &[WrongBands] = &[
    WrongBands::TouchAccepted,
    WrongBands::InsideAccepted,
    WrongBands::GapLowAccepted,
    WrongBands::GapHighAccepted,
    WrongBands::GapInsideAccepted,
    WrongBands::GapOfOneAccepted,
    WrongBands::WidthsEnough,
    WrongBands::GapFirst,
    WrongBands::OverlapFirst,
    WrongBands::PastCountRead,
    WrongBands::PastCountCloses,
    WrongBands::PastCountShares,
    WrongBands::NineIsEight,
    WrongBands::ZeroIsOne,
    WrongBands::CountLowByte,
    WrongBands::EndsExchanged,
    WrongBands::EmptySkipped,
    WrongBands::BandAboveAccepted,
    WrongBands::MostRefused,
    WrongBands::AboveAccepted,
    WrongBands::AboveIsGap,
    WrongBands::LimitsOfNext,
    WrongBands::LimitsOfFirst,
    WrongBands::BetaOfFirst,
    WrongBands::LimitsExchanged,
    WrongBands::LastExcluded,
];

/// Each is put into an own cover and a crowd cover.
const WRONG_COVERS: &[WrongCover] = &[
    WrongCover::Twelve,
    WrongCover::ZeroRefused,
    WrongCover::Short(OPERATORS),
    WrongCover::Short(RIDES),
    WrongCover::Short(PRESENCE),
    WrongCover::ShortMarks,
    WrongCover::Presence(Reading::OffIsOn),
    WrongCover::Presence(Reading::OutIsIn),
    WrongCover::Presence(Reading::NotZero),
    WrongCover::Presence(Reading::LowByte),
    WrongCover::ZeroKeepsAbsent,
    WrongCover::DegreesAlone,
    WrongCover::SweptOnce,
    WrongCover::MarksAsCame,
    WrongCover::MarksPastNodes,
    WrongCover::MarksThoughRefused,
    WrongCover::CountsThoughRefused,
    WrongCover::CountsExchanged,
    WrongCover::WritesBeside,
];

/// All that are found.
fn faults() -> Vec<Fault> {
    fn each<T: Copy>(calls: &[fn(T) -> Fault], wrong: &[T]) -> Vec<Fault> {
        calls.iter().flat_map(|call| wrong.iter().map(|wrong| call(*wrong))).collect()
    }
    let minimums = each(&[Fault::PeelMinimums, Fault::OwnMinimums, Fault::CrowdMinimums], WRONG_MINIMUMS);
    let bands = each(&[Fault::LookUp, Fault::CrowdLookUp], WRONG_BANDS);
    let covers = each(&[Fault::OwnCover, Fault::CrowdCover], WRONG_COVERS);
    [FAULTS.to_vec(), minimums, bands, covers].concat()
}

/// Faults that stop the program.
const STOPS: &[Fault] = &[
    Fault::PreviewWritesPastSpare,
    Fault::PreviewWrites(OPERATORS),
    Fault::PreviewWrites(RIDES),
    Fault::PreviewWrites(STAMPS),
    Fault::PreviewWrites(REVISIONS),
    Fault::PreviewWrites(INDEX),
    Fault::PreviewWrites(PRESENCE_STAMPS),
    Fault::PreviewWrites(PRESENCE_REVISIONS),
    Fault::PreviewWrites(PRESENCE),
    Fault::PairCover(Wrong::WritesPast),
    Fault::PairCover(Wrong::Writes(CoverPart::Operators)),
    Fault::PairCover(Wrong::Writes(CoverPart::Rides)),
    Fault::PairCover(Wrong::Writes(CoverPart::Here)),
    Fault::PairCover(Wrong::Writes(CoverPart::Limits)),
    Fault::TableCover(Wrong::WritesPast),
    Fault::TableCover(Wrong::Writes(CoverPart::ByOperator)),
    Fault::TableCover(Wrong::Writes(CoverPart::ByRide)),
    Fault::TableCover(Wrong::Writes(CoverPart::Limits)),
    Fault::Tables(WrongTables::Writes(CoverPart::Operators)),
    Fault::Tables(WrongTables::Writes(CoverPart::Rides)),
    Fault::Tables(WrongTables::Writes(CoverPart::Here)),
    Fault::CrowdCover(WrongCover::WritesPast),
    Fault::CrowdCover(WrongCover::Writes(OPERATORS)),
    Fault::CrowdCover(WrongCover::Writes(RIDES)),
    Fault::CrowdCover(WrongCover::Writes(PRESENCE)),
    Fault::PeelMinimums(WrongMinimums::Written),
    Fault::PeelMinimums(WrongMinimums::ReadPast),
    Fault::OwnMinimums(WrongMinimums::Written),
    Fault::OwnMinimums(WrongMinimums::ReadPast),
    Fault::CrowdMinimums(WrongMinimums::Written),
    Fault::CrowdMinimums(WrongMinimums::ReadPast),
    Fault::OwnCover(WrongCover::WritesPast),
    Fault::OwnCover(WrongCover::Writes(OPERATORS)),
    Fault::OwnCover(WrongCover::Writes(RIDES)),
    Fault::OwnCover(WrongCover::Writes(PRESENCE)),
];

/// What so many rounds find, until it is enough.
fn found(fault: Fault, round: Round, enough: fn(&Totals) -> bool) -> Totals {
    let mut numbers = Numbers::new(1);
    let mut compared = Compared::new(Faulty::new(fault), 1);
    for _ in 0..600 {
        round(&mut compared, &mut numbers);
        if enough(&compared.totals) {
            break;
        }
    }
    compared.totals
}

/// Among the calls are previews that give each of 0 to 10, 14 and 15, whose message is then sent, and whose spare
/// memory is then the board; messages of all six kinds are taken; queries and peels are accepted with somebody off or
/// out; a query is made for the limits of a crowd cover and of an own cover, an own cover after a crowd cover, and a peel
/// after an own cover.
#[test]
fn the_reference_does_not_differ_from_itself() {
    let totals = found(Fault::None, SEQUENCE_AND_DELIVERY, |totals| totals.deliveries == 200);
    assert_eq!(totals.differences, 0);
    assert!(totals.preview_numbers.keys().copied().eq((0..=10).chain([14, 15])), "{:?}", totals.preview_numbers);
    assert!(totals.sent > 0 && totals.exchanged > 0, "{} {}", totals.sent, totals.exchanged);
    assert!(totals.taken_kinds.keys().copied().eq(1..=6), "{:?}", totals.taken_kinds);
    let (crowd, own) = (&totals.crowd, &totals.own);
    let others = [totals.absent, crowd.queried, crowd.own_covered, own.queried, own.peeled];
    assert!(others.iter().all(|count| *count > 0), "{others:?}");
}

/// Some nodes are dropped and some are kept.
#[test]
fn covers_of_the_reference_do_not_differ() {
    let totals = found(Fault::None, COVERS, |_| false);
    assert_eq!(totals.differences, 0);
    let CoverTotals { from_pairs, over_tables, tables, dropped, kept, .. } = totals.covers;
    assert!(tables == 600 && over_tables > tables && from_pairs > tables, "{over_tables} {from_pairs}");
    assert!(dropped > 1000 && kept > 1000, "{dropped} {kept}");
}

/// There are lists of minimums of all sorts.
#[track_caller]
fn are_all_sorts(minimums: &MinimumTotals) {
    let MinimumTotals { without, some, all, below, equal, above, longer, short } = minimums;
    let lists = [without, some, all, below, equal, above, longer, short];
    assert!(lists.iter().all(|count| **count > 100), "{minimums:?}");
}

/// Each number that a look-up and a crowd cover can give is given.
#[test]
fn look_ups_and_crowd_covers_of_the_reference_do_not_differ() {
    let totals = found(Fault::None, CROWD, |_| false);
    assert_eq!(totals.differences, 0);
    let CrowdTotals { look_up_numbers, cover_numbers, minimums, .. } = totals.crowd;
    assert!(look_up_numbers.keys().copied().eq([0, 16, 17, 18]), "{look_up_numbers:?}");
    assert!(cover_numbers.keys().copied().eq((0..=5).chain(16..=18)), "{cover_numbers:?}");
    are_all_sorts(&minimums);
}

/// Each number that an own cover can give is given.
#[test]
fn own_covers_of_the_reference_do_not_differ() {
    let totals = found(Fault::None, OWN, |_| false);
    assert_eq!(totals.differences, 0);
    let OwnTotals { numbers, minimums, .. } = totals.own;
    assert!(numbers.keys().copied().eq(0..=5), "{numbers:?}");
    are_all_sorts(&minimums);
}

/// A peel and covers that are faulty in nothing but that they are found by another program.
#[test]
fn minimums_read_as_they_should_be_do_not_differ() {
    for call in [Fault::PeelMinimums, Fault::OwnMinimums, Fault::CrowdMinimums] {
        let fault = call(WrongMinimums::None);
        assert_eq!(found(fault, fault.round(), |_| false).differences, 0, "{fault:?}");
    }
}

#[test]
fn each_fault_is_found() {
    for fault in faults() {
        let totals = found(fault, fault.round(), |totals| totals.differences > 0);
        assert!(totals.differences > 0, "{fault:?} is not found");
    }
}

/// Each in a process of its own.
#[test]
fn each_write_outside_stops_the_program() {
    let name = "faults::each_write_outside_stops_the_program";
    if let Ok(wanted) = std::env::var("FAULT") {
        let fault = STOPS.iter().find(|fault| format!("{fault:?}") == wanted).unwrap();
        found(*fault, fault.round(), |_| false);
        return;
    }
    const SEGMENTATION_FAULT: i32 = 11;
    for fault in STOPS {
        let program = std::env::current_exe().unwrap();
        let run = Command::new(program).args([name, "--exact"]).env("FAULT", format!("{fault:?}")).output().unwrap();
        assert_eq!(run.status.signal(), Some(SEGMENTATION_FAULT), "{fault:?}");
    }
}
