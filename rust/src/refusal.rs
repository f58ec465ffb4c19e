//! The refusals: name, number and words of docs/numbers.tsv, a line each, and the calls that refuse so.
use std::error::Error;
use std::fmt;

macro_rules! refusals {
    ($($(#[$calls:meta])* $name:ident = $number:literal, $words:literal;)*) => {
        /// Why a call was refused. Displayed, it is the words and the number.
        ///
        /// ```
        /// use ads::Refusal;
        ///
        /// let refusal = ads::contents(b"no ADS file", 0).unwrap_err();
        /// assert_eq!(refusal, Refusal::NoRow);
        /// assert_eq!(refusal.to_string(), "no such row (13)");
        /// ```
        #[repr(u8)]
        #[non_exhaustive]
        #[derive(Clone, Copy, Debug, PartialEq, Eq, PartialOrd, Ord, Hash)]
        pub enum Refusal {
            $(
                #[doc = concat!($words, ".")]
                #[doc = ""]
                $(#[$calls])*
                $name = $number,
            )*
        }

        impl Refusal {
            /// The refusal with this number; None for 0, which is no refusal, and for numbers that no call answers.
            ///
            /// ```
            /// use ads::Refusal;
            ///
            /// assert_eq!(Refusal::from_number(13), Some(Refusal::NoRow));
            /// assert_eq!(Refusal::from_number(0), None);
            /// ```
            pub const fn from_number(number: u8) -> Option<Refusal> {
                match number {
                    $($number => Some(Refusal::$name),)*
                    _ => None,
                }
            }

            /// What is wrong.
            ///
            /// ```
            /// assert_eq!(ads::Refusal::Cut.words(), "the bytes end too soon");
            /// ```
            pub const fn words(self) -> &'static str {
                match self {
                    $(Refusal::$name => $words,)*
                }
            }
        }
    };
}

refusals! {
    /// By [`read`](crate::read).
    Title = 1, "the first 65 bytes are not those of an ADS 1.00 file";
    /// By [`read`](crate::read) and [`begin`](crate::begin).
    Tape = 2, "NUL with a mark of no bytes, the tape form";
    /// By [`read`](crate::read) and [`begin`](crate::begin).
    MarkMini = 3, "the mark begins with MiniChunk=";
    /// By [`read`](crate::read), also where the mark of an open chunk isn't found.
    Cut = 4, "the bytes end too soon";
    /// By [`read`](crate::read).
    Differs = 5, "a label, line feed, mark or listed word differs";
    /// By [`read`](crate::read), [`begin`](crate::begin) and [`append`](crate::append); by the last two also for a
    /// wrong listed word, an over-long text or a mark over 999 bytes.
    Form = 6, "a field is out of form or range";
    /// By [`read`](crate::read).
    Length = 7, "a length disagrees with what it measures, or the type count is outside 1 to 64";
    /// By [`read`](crate::read).
    ShortId = 8, "a short ID is there twice or undeclared, or there is no mini-chunk";
    /// By [`read`](crate::read) of a whole chunk, and [`append`](crate::append) of the one given.
    Repeated = 9, "the serial number is already in a row";
    /// By [`read`](crate::read); never by [`read_all`](crate::read_all).
    RowsFull = 10, "another whole chunk with a new serial number, and no row left";
    /// By every call.
    Limit = 11, "a byte buffer is over 2^30 bytes, or the length is over the buffer's";
    /// By [`append`](crate::append).
    NotClean = 12, "the file isn't clean";
    /// By [`parent`](crate::parent), [`ancestors`](crate::ancestors), [`contents`](crate::contents),
    /// [`gather`](crate::gather) and [`relations_check`](crate::relations_check), by
    /// [`relations_check_latest`](crate::relations_check_latest) where no row is a relation chunk, and by
    /// [`append`](crate::append) of the parents, also where one is repeated or there are over 16.
    NoRow = 13, "no such row";
    /// By [`parent`](crate::parent), of the dependency, and [`gather`](crate::gather), of the rest.
    NoDependency = 14, "no such dependency, not a MultiChunk, or the short ID is undeclared";
    /// By [`begin`](crate::begin) and [`append`](crate::append).
    MarkZero = 15, "the mark has a zero byte";
    /// By [`append`](crate::append).
    Open = 16, "open under LLC or for BIN, or the mark is found before the data's end";
    /// By [`append`](crate::append).
    Multichunk = 17, "a MultiChunk can't be appended";
    /// By [`begin`](crate::begin), [`append`](crate::append), [`gather`](crate::gather),
    /// [`relations_write`](crate::relations_write), [`price`](crate::price), [`listing`](crate::listing),
    /// [`pack`](crate::pack) and [`unpack`](crate::unpack), and by [`ancestors`](crate::ancestors),
    /// [`relations_check`](crate::relations_check) and [`relations_check_latest`](crate::relations_check_latest) of
    /// their list.
    NoRoom = 18, "the buffer or list is too short for the result";
    /// By [`relations_check`](crate::relations_check).
    NotRelations = 19, "the row isn't a relation chunk";
    /// By [`relations_check`](crate::relations_check) and [`relations_check_latest`](crate::relations_check_latest).
    Heading = 20, "the heading line of the relation chunk differs";
    /// By [`price`](crate::price).
    Total = 21, "the total has more than 18 digits";
    /// By [`ancestors`](crate::ancestors).
    Circle = 23, "a chain of dependencies comes back to a row on it";
    /// By [`ancestors`](crate::ancestors).
    RowsOver64 = 24, "more than 64 rows in the reading";
    /// By [`unpack`](crate::unpack).
    BlockSum = 27, "the sum of a block is wrong";
    /// By [`unpack`](crate::unpack).
    BlockNumber = 28, "the number of a block is wrong";
    /// By [`unpack`](crate::unpack), also where there is no block or the last of several uses none.
    BlockUse = 29, "the use of a block is wrong, a spare byte isn't zero, or a block isn't whole";
}

impl Refusal {
    /// The number, as in `ads.h`.
    ///
    /// ```
    /// assert_eq!(ads::Refusal::NoRoom.number(), 18);
    /// ```
    pub const fn number(self) -> u8 {
        self as u8
    }

    /// What a call answered: None for 0. Only a library of a later version can answer a number without a name.
    pub(crate) fn answered(number: u8) -> Option<Refusal> {
        let refusal = Refusal::from_number(number);
        assert!(number == 0 || refusal.is_some(), "libads refused with {number}, which this crate doesn't know");
        refusal
    }
}

/// The value where the number is 0, else the refusal.
pub(crate) fn unless_refused<T>(number: u8, value: T) -> Result<T, Refusal> {
    match Refusal::answered(number) {
        None => Ok(value),
        Some(refusal) => Err(refusal),
    }
}

impl fmt::Display for Refusal {
    fn fmt(&self, f: &mut fmt::Formatter<'_>) -> fmt::Result {
        write!(f, "{} ({})", self.words(), self.number())
    }
}

impl Error for Refusal {}

impl From<Refusal> for u8 {
    fn from(refusal: Refusal) -> u8 {
        refusal.number()
    }
}
