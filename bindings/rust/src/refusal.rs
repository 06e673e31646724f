use crate::sizes::MOST_DEFINITIONS;
use std::fmt;

/// Where a refusal was met. [`Policy::part`](crate::Policy::part) has its words.
///
/// ```
/// use txindurbe::Part;
///
/// assert_eq!(format!("{}, {}", Part::Definition(0), Part::Query), "definition 0, the query");
/// ```
#[derive(Clone, Copy, PartialEq, Eq, Hash, Debug)]
pub enum Part {
    /// A definition of the policy, counted from 0.
    Definition(u32),
    /// The query.
    Query,
}

/// The part that is the query. Lower numbers are definitions, higher ones no part.
const QUERY_PART: u32 = MOST_DEFINITIONS as u32;
const NO_PART: u32 = QUERY_PART + 1;

impl Part {
    /// Of the engine's number.
    pub(crate) fn from_number(number: u32) -> Option<Part> {
        match number {
            0..QUERY_PART => Some(Part::Definition(number)),
            QUERY_PART => Some(Part::Query),
            _ => None,
        }
    }

    pub(crate) fn number(self) -> u32 {
        match self {
            Part::Definition(number @ 0..QUERY_PART) => number,
            Part::Definition(_) => NO_PART,
            Part::Query => QUERY_PART,
        }
    }
}

impl fmt::Display for Part {
    fn fmt(&self, out: &mut fmt::Formatter) -> fmt::Result {
        match self {
            Part::Definition(number) => write!(out, "definition {number}"),
            Part::Query => out.write_str("the query"),
        }
    }
}

/// The documents' refusal table: the engine's word for each, whether a part comes with it, its number, its rule.
macro_rules! refusal_table {
    ($($kind:ident $(($part:ident: $Part:ident))? = $number:literal, $rule:literal;)*) => {
        /// Why the engine refused, as the documents' refusal table has it. A refused filing leaves its store unchanged. Later versions may know more refusals.
        ///
        /// ```
        /// use txindurbe::{variable, Expression, Guard, Key, Part, Policy, Polarity, Refusal};
        ///
        /// // Each x that is withdrawn: but certificates say only what is not.
        /// let withdrawn = Expression::list(Key::new(1), 2, Polarity::Minus);
        /// let drawn = Expression::each([Guard::Draw(vec![variable("x")], withdrawn)], [variable("x")]);
        /// let policy = Policy::new(Key::new(9), &[])?;
        /// let refusal = policy.judge(&policy.query(&drawn)?).unwrap_err();
        /// assert_eq!(refusal, Refusal::OpenDraw(Part::Query));
        /// assert_eq!(refusal.to_string(), "refusal 7 in the query: a draw is made from an open expression");
        /// # Ok::<(), txindurbe::Unresolved>(())
        /// ```
        #[derive(Clone, Copy, PartialEq, Eq, Hash, Debug)]
        #[non_exhaustive]
        pub enum Refusal {
            $(#[doc = concat!($number, ": ", $rule, ".")] $kind $(($Part))?,)*
        }

        impl Refusal {
            /// The refusal of this number. None if there is no such number, if it comes with a part and none is given, or if it comes without and one is.
            ///
            /// ```
            /// use txindurbe::{Part, Refusal};
            ///
            /// assert_eq!(Refusal::from_number(10, None), Some(Refusal::StoreFull));
            /// assert_eq!(Refusal::from_number(7, Some(Part::Query)), Some(Refusal::OpenDraw(Part::Query)));
            /// assert_eq!(Refusal::from_number(7, None), None);
            /// assert_eq!(Refusal::from_number(0, None), None);
            /// ```
            pub fn from_number(number: u32, part: Option<Part>) -> Option<Refusal> {
                match (number, part.as_slice()) {
                    $(($number, &[$($part)?]) => Some(Refusal::$kind $(($part))?),)*
                    _ => None,
                }
            }

            /// The documents' number.
            ///
            /// ```
            /// use txindurbe::{Part, Refusal};
            ///
            /// assert_eq!(Refusal::TooManyRows(Part::Query).number(), 13);
            /// ```
            pub fn number(&self) -> u32 {
                match self {
                    $(Refusal::$kind { .. } => $number,)*
                }
            }

            /// The rule that is broken, in words.
            ///
            /// ```
            /// use txindurbe::{Part, Refusal};
            ///
            /// assert_eq!(Refusal::TooManyRows(Part::Query).rule(), "a value lists over 128 rows");
            /// ```
            pub fn rule(&self) -> &'static str {
                match self {
                    $(Refusal::$kind { .. } => $rule,)*
                }
            }

            /// The definition or the query that it is about, if it is about one: that is so of 3 to 7 and 12 to 14.
            ///
            /// ```
            /// use txindurbe::{Part, Refusal};
            ///
            /// assert_eq!(Refusal::TooManyRows(Part::Query).part(), Some(Part::Query));
            /// assert_eq!(Refusal::StoreFull.part(), None);
            /// ```
            pub fn part(&self) -> Option<Part> {
                match *self {
                    $(Refusal::$kind $(($part))? => [$($part)?].first().copied(),)*
                }
            }
        }
    };
}

refusal_table! {
    BadHeader = 1, "the policy is under 2 or over 8,192 words, has a format other than 1 and 2 or over 16 definitions, or its table is cut short";
    BadTable = 2, "an entry of the policy's table breaks a rule, or the parts do not end with the policy";
    BadWord(part: Part) = 3, "a word is outside its rule, words run out or are left over, or the query is empty or over 1,024 words";
    NotInScope(part: Part) = 4, "a variable is not in scope or wrongly numbered, or a definition is not available";
    TooDeep(part: Part) = 5, "an expression stands deeper than 15, or there is a ninth draw";
    NoPolarity(part: Part) = 6, "a definition does not have its declared polarity, or the query has none";
    OpenDraw(part: Part) = 7, "a draw is made from an open expression";
    BadStore = 8, "the store is too short or unsound";
    BadCertificate = 9, "the certificate is not ten words or unsound";
    StoreFull = 10, "the store holds 1,600 certificates and this one is new";
    ShortArea = 11, "an area lent to the call is too short";
    ComplementDrawn(part: Part) = 12, "a complement is drawn from while reading";
    TooManyRows(part: Part) = 13, "a value lists over 128 rows";
    TooManyDraws(part: Part) = 14, "a draw is due and 1,000,000 were made";
    NotExternal = 15, "an external rule is broken, or the output would pass 8,192 words";
    BadDate = 16, "a date does not exist or lies outside 2000 to 2099";
    BadTerm = 17, "the certificate's end is not after its first minute";
    BadLink = 18, "the link is malformed, or the link store too short or unsound";
    LinksFull = 19, "the link store holds 256 links and this one is new";
    NotAKey = 20, "the number given as our key is not a key";
}

impl Refusal {
    /// Of the numbers that the library gave. What the documents do not list means that another version of the library is linked.
    pub(crate) fn of_reply(number: u32, part: u32) -> Refusal {
        Refusal::from_number(number, Part::from_number(part)).unwrap_or_else(|| panic!("the library linked has a refusal {number} with part {part}"))
    }

    /// The same of a call whose refusals have no part.
    pub(crate) fn without_part(number: u32) -> Refusal {
        Refusal::of_reply(number, NO_PART)
    }
}

impl fmt::Display for Refusal {
    fn fmt(&self, out: &mut fmt::Formatter) -> fmt::Result {
        write!(out, "refusal {}", self.number())?;
        if let Some(part) = self.part() {
            write!(out, " in {part}")?;
        }
        write!(out, ": {}", self.rule())
    }
}

impl std::error::Error for Refusal {}

#[cfg(test)]
mod tests {
    use super::*;

    /// BadHeader as BAD_HEADER.
    fn as_constant(variant: &str) -> String {
        let mut constant = String::new();
        for letter in variant.chars() {
            if letter.is_uppercase() && !constant.is_empty() {
                constant.push('_');
            }
            constant.push(letter.to_ascii_uppercase());
        }
        constant
    }

    /// Those that come with a part are given the query.
    fn of_number(number: u32) -> Option<Refusal> {
        [None, Some(Part::Query)].into_iter().find_map(|part| Refusal::from_number(number, part))
    }

    #[test]
    fn refusals_and_header_have_the_engines_words_and_numbers() {
        let engine = include_str!("../../../crates/refusals/src/lib.rt");
        let header: Vec<&str> = include_str!("../../../include/txindurbe.h").split([' ', ',', '\n']).filter(|word| !word.is_empty()).collect();
        let in_header = |constant: &str, number: &str| header.windows(3).any(|words| words == [&format!("TXB_{constant}"), "=", number]);
        let (_, behind) = engine.split_once("pub enum Refusal {").expect("the engine has refusals");
        let (variants, _) = behind.split_once('}').expect("they end");
        let mut refusals = 0;
        for (variant, number) in variants.lines().filter_map(|line| line.trim().strip_suffix(',')?.split_once(" = ")) {
            assert!(in_header(&as_constant(variant), number), "the header's {variant}");
            let number = number.parse().expect("each has a number");
            let refusal = of_number(number).expect("each has a refusal");
            assert_eq!((format!("{refusal:?}").replace("(Query)", ""), refusal.number()), (variant.to_string(), number));
            refusals += 1;
        }
        assert_eq!((0..1_000).filter_map(of_number).count(), refusals);
        let constants = engine.lines().filter_map(|line| line.strip_prefix("pub const ")?.strip_suffix(';')?.split_once(": u32 = "));
        let mut parts = 0;
        for (constant, number) in constants {
            assert!(in_header(constant, number), "the header's {constant}");
            let number = number.parse().expect("constants are numbers");
            match constant {
                "QUERY_PART" => assert_eq!((Part::from_number(number), Part::Query.number()), (Some(Part::Query), number)),
                "NO_PART" => assert_eq!((Part::from_number(number), NO_PART), (None, number)),
                _ => panic!("{constant} is no part"),
            }
            parts += 1;
        }
        assert_eq!((refusals, parts), (20, 2));
    }

    /// 3 to 7 and 12 to 14 come with a part; with 1, 2, 8, 11 and every number above 14 there is none.
    #[test]
    fn some_refusals_come_with_a_part() {
        for number in 1..=20 {
            let with_part = (3..=7).contains(&number) || (12..=14).contains(&number);
            for part in [Part::Definition(3), Part::Query] {
                let refusal = Refusal::from_number(number, Some(part));
                assert_eq!(refusal.map(|refusal| (refusal.number(), refusal.part())), with_part.then_some((number, Some(part))), "{number}");
            }
            let refusal = Refusal::from_number(number, None);
            assert_eq!(refusal.map(|refusal| (refusal.number(), refusal.part())), (!with_part).then_some((number, None)), "{number}");
        }
    }

    #[test]
    fn definitions_past_the_last_are_no_part() {
        assert_eq!(Part::Definition(15).number(), 15);
        for number in [16, 17, u32::MAX] {
            assert_eq!(Part::Definition(number).number(), NO_PART);
        }
    }
}
