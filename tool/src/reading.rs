//! Keys, lists and rows as people write them outside a policy: in files of certificates and links, in tests and on the command line. Names are those that a
//! policy declares.
//!
//! What is certified says which way it goes, so that nobody reads "alma, withdrawn, 7" as "7 is withdrawn": a certificate for a + list says `in`, one for a
//! − list `not in`; a + link says `contains`, a − link `within`. In CSV and JSON that is the field `says`, which must agree with the list's sign:
//!
//! ```text
//! key,row,says,list,first,end
//! alma,7,in,released,2027-01-01,2027-07-01
//! alma,7,not in,withdrawn,2027-01-01,2027-07-01
//!
//! key,list,says,other_key,other_list
//! alma,released,contains,vla,released
//! alma,withdrawn,within,vla,withdrawn
//! ```
//!
//! In a file of tests: `file (7) in alma.released from 2027-01-01 to 2027-07-01`, `file (7) not in alma.withdrawn from .. to ..`,
//! `link alma.released contains vla.released`, `link alma.withdrawn within vla.withdrawn`.

use txindurbe::{Atom, Key, Polarity, Row};
use txindurbe_language::Names;

/// kN, or a name that the policy declares.
pub fn key(names: &Names, text: &str) -> Result<Key, String> {
    numbered_key(text)
        .or_else(|| names.key(text))
        .ok_or_else(|| unknown(names, "key", text, "write kN, or give the policy that declares it (--names)"))
}

/// `1+`, `2-`, or a name that the policy declares.
pub fn list(names: &Names, text: &str) -> Result<(u16, Polarity), String> {
    numbered_list(text)
        .or_else(|| names.list(text))
        .ok_or_else(|| unknown(names, "list", text, "write its number and sign as 1+ or 2-, or give the policy that declares it (--names)"))
}

/// A number below 2^31, or a key.
pub fn atom(names: &Names, text: &str) -> Result<Atom, String> {
    match text.parse::<u32>() {
        Ok(number) if Atom::from(number).key().is_none() => Ok(Atom::from(number)),
        Ok(_) => Err(format!("{text} is too large for a number: keys are written kN")),
        Err(_) => key(names, text).map(Atom::from),
    }
}

/// `7`, `7 2027`, `(7, 2027)`.
pub fn row(names: &Names, text: &str) -> Result<Row, String> {
    let text = text.trim();
    let inside = match (text.strip_prefix('('), text.strip_suffix(')')) {
        (Some(rest), Some(_)) => rest.strip_suffix(')').unwrap_or(rest),
        (None, None) => text,
        _ => return Err(format!("{text:?} has one parenthesis: write a row as (7, 2027)")),
    };
    let atoms = inside.split([' ', ',']).filter(|part| !part.is_empty()).map(|part| atom(names, part));
    let atoms: Vec<Atom> = atoms.collect::<Result<_, String>>()?;
    Row::try_from(atoms.as_slice()).map_err(|_| format!("a row has one to four atoms, and {text:?} has {}", atoms.len()))
}

/// Whether a certificate's words agree with the sign of its list.
pub fn certificate_says(text: &str, polarity: Polarity) -> Result<(), String> {
    let words = text.split_whitespace().collect::<Vec<_>>().join(" ");
    match (words.as_str(), polarity) {
        ("in", Polarity::Plus) | ("not in", Polarity::Minus) => Ok(()),
        ("in", Polarity::Minus) => Err("certificates of a − list say what is not in it: write `not in`, or name a + list".into()),
        ("not in", Polarity::Plus) => Err("certificates of a + list say what is in it: write `in`, or name a − list".into()),
        _ => Err(format!("a certificate says `in` or `not in`, and not {text:?}")),
    }
}

/// Whether a link's word agrees with the sign of its lists.
pub fn link_says(text: &str, polarity: Polarity) -> Result<(), String> {
    match (text.trim(), polarity) {
        ("contains", Polarity::Plus) | ("within", Polarity::Minus) => Ok(()),
        ("contains", Polarity::Minus) => Err("a link of − lists says that the first is `within` the other".into()),
        ("within", Polarity::Plus) => Err("a link of + lists says that the first `contains` the other".into()),
        _ => Err(format!("a link says `contains` or `within`, and not {text:?}")),
    }
}

fn numbered_key(text: &str) -> Option<Key> {
    let number: u32 = text.strip_prefix('k')?.parse().ok()?;
    (number < 1 << 31).then(|| Key::new(number))
}

fn numbered_list(text: &str) -> Option<(u16, Polarity)> {
    let (number, polarity) = match text.strip_suffix('+') {
        Some(number) => (number, Polarity::Plus),
        None => (text.strip_suffix(['-', '−'])?, Polarity::Minus),
    };
    Some((number.trim().parse().ok()?, polarity))
}

fn unknown(names: &Names, what: &str, text: &str, otherwise: &str) -> String {
    match names.closest(text) {
        Some(close) => format!("there is no {what} {text:?}; did you mean {close}?"),
        None => format!("there is no {what} {text:?}: {otherwise}"),
    }
}
