//! Why a call is turned down.

use std::error::Error;
use std::fmt;

/// One line makes a refusal: its number, its name and what it says. `{}` is
/// the value returned with it.
macro_rules! refusals {
    (
        with a value: $($valued_number:literal $valued:ident $valued_text:literal,)*
        alone: $($alone_number:literal $alone:ident $alone_text:literal,)*
    ) => {
        /// Why a call was turned down; no byte that was lent is changed. In the
        /// texts, `{}` is the value.
        #[derive(Clone, Copy, Debug, PartialEq, Eq)]
        #[non_exhaustive]
        pub enum Refusal {
            $(#[doc = concat!($valued_number, ": ", $valued_text, ".")] $valued(u64),)*
            $(#[doc = concat!($alone_number, ": ", $alone_text, ".")] $alone,)*
            /// A number without a name here, or a value where none belongs:
            /// the library is not of this version.
            Other { number: u8, value: u64 },
        }

        impl Refusal {
            /// What the library answers with a number and a value.
            pub(crate) fn new(number: u8, value: u64) -> Refusal {
                match (number, value) {
                    $(($valued_number, _) => Refusal::$valued(value),)*
                    $(($alone_number, 0) => Refusal::$alone,)*
                    _ => Refusal::Other { number, value },
                }
            }

            /// The number by which the paper's table has it.
            pub fn number(self) -> u8 {
                match self {
                    $(Refusal::$valued(_) => $valued_number,)*
                    $(Refusal::$alone => $alone_number,)*
                    Refusal::Other { number, .. } => number,
                }
            }

            /// What is returned with the number: of 1 the length in bytes, of
            /// 2 to 5 the record index, or the record count where a block is
            /// open at the end of the file.
            pub fn value(self) -> Option<u64> {
                match self {
                    $(Refusal::$valued(value) => Some(value),)*
                    $(Refusal::$alone => None,)*
                    Refusal::Other { value, .. } => Some(value),
                }
            }
        }

        impl fmt::Display for Refusal {
            fn fmt(&self, f: &mut fmt::Formatter) -> fmt::Result {
                write!(f, "refused {}: ", self.number())?;
                match self {
                    $(Refusal::$valued(value) => write!(f, $valued_text, value),)*
                    $(Refusal::$alone => f.write_str($alone_text),)*
                    Refusal::Other { value, .. } => write!(f, "not known here, with value {value}"),
                }
            }
        }
    };
}

refusals! {
    with a value:
    1 BadLength "a file of {} bytes is not whole records, or has too many",
    2 BadKind "record {} has a kind that is not of this file",
    3 BadField "record {} has a field out of range or an unused byte that is not 0",
    4 BadStructure "record {} does not fit the open blocks, or the file ends there with a block open",
    5 TooDeep "record {} is nested too deep",
    alone:
    6 BadSettings "the settings are neither 12 nor 24 bytes, or a number is outside its range",
    7 ShortWindow "the window is too short for BEAT, SAVE and the longest step",
    8 OverPeriod "the time or the total is above the period",
    9 NoRoom "the result is longer than the lent buffer or than 5461 records",
    10 BadBuffers "a lent buffer has not the length that it must have",
    11 BadImage "the image's index is not just after a SAVE, or its tick is above the period",
    12 LateStop "the stop tick is at or past the run's end",
    13 BadEntry "the table is not whole entries or has more than 32, or the entry is not in it, or a new window is 0 or a beat's value above 1000000",
}

impl Error for Refusal {}

#[cfg(test)]
mod tests {
    use super::Refusal;

    #[test]
    fn it_says_the_number_the_cause_and_the_value() {
        let text = "refused 3: record 7 has a field out of range or an unused byte that is not 0";
        assert_eq!(Refusal::BadField(7).to_string(), text);
        let text =
            "refused 6: the settings are neither 12 nor 24 bytes, or a number is outside its range";
        assert_eq!(Refusal::BadSettings.to_string(), text);
        let text = "refused 12: the stop tick is at or past the run's end";
        assert_eq!(Refusal::LateStop.to_string(), text);
        let stranger = Refusal::new(21, 5);
        assert_eq!(
            stranger.to_string(),
            "refused 21: not known here, with value 5"
        );
    }

    #[test]
    fn each_says_something_else() {
        let texts: Vec<String> = (0..=14).map(|n| Refusal::new(n, 0).to_string()).collect();
        for (n, text) in texts.iter().enumerate() {
            assert!(text.starts_with(&format!("refused {n}: ")), "{text}");
            assert!(!texts[..n].contains(text), "{text}");
        }
    }

    #[test]
    fn it_goes_through_a_box_of_errors() {
        let refused: Result<(), Refusal> = Err(Refusal::NoRoom);
        let passed_on = || -> Result<(), Box<dyn std::error::Error>> { Ok(refused?) };
        assert!(passed_on().is_err());
    }
}
