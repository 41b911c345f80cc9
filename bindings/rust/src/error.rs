//! Refusals by name.

use std::fmt;

macro_rules! errors {
    ($($number:literal $name:ident $text:literal,)*) => {
        /// Why a call has no answer. docs/REFUSALS.md says of each number when it comes.
        #[derive(Clone, Copy, Debug, PartialEq, Eq, Hash)]
        #[non_exhaustive]
        pub enum Error {
            $(#[doc = $text] $name,)*
            /// A number that this version doesn't name.
            Other(u8),
        }

        impl Error {
            /// The refusal of a number.
            pub(crate) fn of(number: u8) -> Error {
                match number {
                    $($number => Error::$name,)*
                    _ => Error::Other(number),
                }
            }

            /// The number of the refusal.
            #[must_use]
            pub fn number(self) -> u8 {
                match self {
                    $(Error::$name => $number,)*
                    Error::Other(number) => number,
                }
            }
        }

        impl fmt::Display for Error {
            fn fmt(&self, f: &mut fmt::Formatter<'_>) -> fmt::Result {
                match self {
                    $(Error::$name => f.write_str($text),)*
                    Error::Other(number) => write!(f, "refusal {number}"),
                }
            }
        }
    };
}

errors! {
    1 Limit "the limit has no room for the header",
    2 Questions "the limit has no room for the questions",
    3 Memory "memory ran out",
    4 Short "the bytes end inside a field, or before the place",
    5 BadName "a name is spelled wrongly",
    6 OptOwner "an OPT record has another owner than the root",
    7 DataLength "RDLENGTH says more bytes than are left",
    8 BadData "data that its type doesn't read",
    10 EmptyData "empty data outside an update",
    11 AfterSignature "a record after the signature",
    12 Misplaced "OPT, SIG or TSIG outside the additional section",
    13 SecondOpt "a second OPT record",
    16 Query "a query, where a response is asked for",
    17 UnexpectedToken "a token that the entry has no place for",
    18 Lexer "a character or a bracket that no token has a place for",
    19 Entry "an entry that can't be carried out",
    20 NoInclude "an included text, and none is handed in",
    21 UnknownType "a text that is no record type",
    22 UnsupportedType "a type without a text form",
    23 BadText "items that are no data, name or TTL",
    24 NotUtf8 "a text that isn't UTF-8",
    25 Class "a record that isn't of the class IN",
    26 NoOrigin "an empty origin or name",
    27 NotOneSet "the text of a set without a record, or with several owners or types",
    28 Outside "an owner outside the zone",
    29 Type "a type that no update here is of",
    30 NotSoa "a record that isn't the zone's SOA",
    31 NotOnWire "what no message says: a relative name in data, an OPT record, a code without bits",
    32 TooLong "an update, question or record that no message of 65,535 bytes holds",
    33 TwoAnames "an update that leaves an owner with two ANAME records",
    34 Closed "a zone handle that isn't open",
    35 NoSoa "a zone that hasn't exactly one record as its SOA",
    36 NoPlace "a place of a transfer that no call left",
    37 NoMnemonic "a text that names no class, or no response code",
    38 NotAQuery "a response, where a query is asked for",
}

impl std::error::Error for Error {}
