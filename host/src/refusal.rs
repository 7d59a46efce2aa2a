//! Why a call was refused.
use std::error::Error;
use std::fmt;

/// Why a call was refused: docs/REQUIREMENTS.md, C. The number of each is its place there.
#[derive(Clone, Copy, Debug, PartialEq, Eq, Hash)]
#[repr(u32)]
pub enum Refusal {
    SheetLength = 1,
    TooManyJobs,
    CabinetSize,
    RecordOffset,
    RecordField,
    LabelLengths,
    LabelByte,
    OverWide,
    Circular,
    BufferTooShort,
    ListLengths,
    DeskFigures,
    SharesExceedLimit,
    NoSuchNumber,
    ForNothing,
    PassesCeiling,
    DoesNotFit,
    ExceedsHolding,
    Changeover,
    NoCountServes,
    HoldingAboveCeiling,
    HoldingsExceedLimit,
    NoJobs,
    ModuleSize,
    NotReady,
    CardUnfit,
}

use Refusal::*;

/// Every refusal in the order of the numbers, in plain words.
const IN_WORDS: [(Refusal, &str); 26] = [
    (SheetLength, "the sheet has fewer than 10 or more than 570 bytes"),
    (TooManyJobs, "there are more than 20 jobs"),
    (CabinetSize, "the cabinet has no modules or more than 64"),
    (RecordOffset, "the records do not lie where the trailer says"),
    (RecordField, "some record has a field outside its range, or waits for a job that there is not"),
    (LabelLengths, "the label lengths do not add up to the label bytes there are"),
    (LabelByte, "some label has a byte below 32 or above 126, or begins or ends with a space"),
    (OverWide, "some job needs more modules than the cabinet has"),
    (Circular, "some job would have to end before itself"),
    (BufferTooShort, "the lent buffer is too short"),
    (ListLengths, "shares and ceilings are not two lists of one length, 2 to 8, or not of the desk's"),
    (DeskFigures, "the limit is not 0.1 to 40,000 kW, a share exceeds its ceiling, or a ceiling exceeds the limit"),
    (SharesExceedLimit, "the assured shares add up to more than the limit"),
    (NoSuchNumber, "no controller or job has this number, or no calls can have left this desk or this runner"),
    (ForNothing, "the call is for no power"),
    (PassesCeiling, "the claim would pass the controller's ceiling"),
    (DoesNotFit, "the claim does not fit beside what others hold or have reserved"),
    (ExceedsHolding, "the hand-back exceeds the holding"),
    (Changeover, "the changeover is longer than 30 minutes"),
    (NoCountServes, "no cabinet of up to 64 modules is enough: none has a plan that ends by that minute"),
    (HoldingAboveCeiling, "some holding exceeds its new ceiling"),
    (HoldingsExceedLimit, "the holdings, each raised to its new share where that is larger, exceed the new limit"),
    (NoJobs, "there are no jobs"),
    (ModuleSize, "the size of a module is not 0.1 to 1,000 kW"),
    (NotReady, "the controller's assured share is below what the plan needs, or it holds something"),
    (CardUnfit, "the card is not one of a valid plan of the sheet"),
];

impl Refusal {
    /// The numbers that there are, for people.
    pub const NUMBERS: &'static str = "1 to 26";

    /// Every refusal, in the order of the numbers.
    pub fn all() -> impl Iterator<Item = Refusal> {
        IN_WORDS.iter().map(|(refusal, _)| *refusal)
    }

    /// The refusal of this number.
    pub fn of_number(number: u32) -> Option<Refusal> {
        Refusal::all().find(|refusal| refusal.number() == number)
    }

    /// Its number in docs/REQUIREMENTS.md.
    pub fn number(self) -> u32 {
        self as u32
    }

    /// What a call of the library answered: 0 for done, else the refusal's number.
    pub(crate) fn or_done(answer: u32) -> Result<(), Refusal> {
        if answer == 0 {
            return Ok(());
        }
        let refusal = Refusal::of_number(answer);
        Err(refusal.unwrap_or_else(|| panic!("the library answered {answer}, which is no refusal")))
    }
}

impl fmt::Display for Refusal {
    fn fmt(&self, f: &mut fmt::Formatter<'_>) -> fmt::Result {
        let words = IN_WORDS.iter().find(|(refusal, _)| refusal == self);
        f.write_str(words.expect("every refusal has its words").1)
    }
}

impl Error for Refusal {}

#[test]
fn each_number_has_its_own_words() {
    let numbers: Vec<u32> = Refusal::all().map(Refusal::number).collect();
    assert_eq!(numbers, (1..=26).collect::<Vec<u32>>());
    for (refusal, words) in IN_WORDS {
        assert_eq!(Refusal::of_number(refusal.number()), Some(refusal));
        assert_eq!(refusal.to_string(), words);
    }
    assert_eq!([0, 27].map(Refusal::of_number), [None; 2]);
}
