//! The numbers of refusals.

use std::fmt;

macro_rules! refusals {
    ($($number:literal $name:ident $sentence:literal)*) => {
        /// Why a call was refused. docs/NUMBERS.md says of each number what it means at the drawing board, what to do about
        /// it, and gives a plate that it refuses.
        ///
        /// ```
        /// use paving::Refusal;
        ///
        /// assert_eq!(Refusal::NoSuchFront.number(), 20);
        /// assert_eq!(Refusal::from_number(20), Some(Refusal::NoSuchFront));
        /// assert_eq!(Refusal::from_number(12), None);
        /// assert_eq!(Refusal::NoSuchFront.to_string(), "refused with 20: there is no front of that number");
        /// ```
        #[derive(Clone, Copy, Debug, PartialEq, Eq, Hash)]
        pub enum Refusal {
            $(#[doc = concat!(stringify!($number), ": ", $sentence, ".")] $name = $number,)*
        }

        impl Refusal {
            /// Every refusal, in the order of the numbers.
            pub const ALL: &'static [Refusal] = &[$(Refusal::$name),*];

            /// What went wrong, in a sentence.
            pub fn sentence(self) -> &'static str {
                match self {
                    $(Refusal::$name => $sentence,)*
                }
            }
        }
    };
}

refusals! {
    1 Shape "a buffer has a wrong length, there are not 1 to 16 loops, or the coordinates are odd in number, are not those of the loop lengths, or are over 2,048 pairs"
    2 Size "the size is not finite, or not above 0"
    3 Option "the size or an option is outside its limits, or seam is true"
    4 Outer "the outer loop has fewer than three points"
    5 Coordinate "a coordinate is not finite, or over 1,000,000 in magnitude"
    6 Area "the outline's area is not positive"
    7 Loop "a loop has fewer than three points, those closer than a thousandth of the size counted as one"
    10 Nodes "the loops come to more than 2,048 nodes at this size"
    11 Text "the text is not a job"
    20 NoSuchFront "there is no front of that number"
    21 Full "the result would have more than 4,096 points or quads"
    22 Row "the row fails one of its checks"
    23 Fronts "there is more than one front to fan"
    24 FanNodes "the front to fan has under four nodes, or an odd number"
    25 State "the state given back is not one"
    26 FanCentre "no point tried for the fan's centre is inside both the front and the plate"
    27 FanCorner "a quad of the fan fails the corner test"
    30 List "the text is not a tile list"
    31 Pair "a pair of nodes is counted neither never nor twice in a tile list"
    32 ListCorner "a quad of a tile list fails the corner test"
}

impl Refusal {
    /// Document 01's number.
    pub fn number(self) -> u32 {
        self as u32
    }

    /// The refusal of a number; `None` where there is no such number.
    pub fn from_number(number: u32) -> Option<Refusal> {
        Refusal::ALL.iter().copied().find(|refusal| refusal.number() == number)
    }

    /// What a call answered: 0 is done.
    pub(crate) fn result(number: u32) -> Result<(), Refusal> {
        if number == 0 {
            return Ok(());
        }
        // That a call answers 0 or a listed number is proved of the library.
        Err(Refusal::from_number(number).expect("a listed number"))
    }
}

impl fmt::Display for Refusal {
    fn fmt(&self, f: &mut fmt::Formatter) -> fmt::Result {
        write!(f, "refused with {}: {}", self.number(), self.sentence())
    }
}

impl std::error::Error for Refusal {}
