//! Why a row is in a list, or is not: which certificate carries it, by which links; which do not hold; which is needed, and from whom.

use super::evidence::{Filed, Found};
use super::explain::Explainer;
use super::fill::{is_variable, plain, value, Scope};
use super::outline::Outline;
use super::standing::Standing;
use crate::when::When;
use txindurbe::{Atom, Certificate, Key, Link, Name, Polarity, Row};
use txindurbe_archive::Kind;
use txindurbe_language::syntax::{ExpressionKind, Identifier, List, Term};

/// How many certificates that do not hold, and how many linked lists, are shown for one list.
const MOST_SHOWN: usize = 5;

/// Where the rows of a list come from.
pub(super) enum Origin {
    /// The issuer is a number.
    NoKey(Atom, Polarity),
    /// Our own definition of this name.
    Own(Key, String),
    Certificates(Name),
}

impl Explainer<'_> {
    pub(super) fn origin(&self, issuer: &Term, list: &List, scope: &Scope) -> Option<Origin> {
        let (number, polarity) = self.sets.list(list);
        let atom = value(self.sets.names(), scope, issuer)?;
        let Some(key) = atom.key() else { return Some(Origin::NoKey(atom, polarity)) };
        let ours = key == self.sets.our_key() && !is_variable(self.sets.names(), issuer);
        Some(match self.own.get(&(number, polarity)) {
            Some(own) if ours => Origin::Own(key, own.clone()),
            _ => Origin::Certificates(Name { key, number, polarity }),
        })
    }

    pub(super) fn list(&mut self, issuer: &Term, list: &List, scope: &Scope, row: &Row) -> Vec<Outline> {
        match self.origin(issuer, list, scope) {
            Some(Origin::NoKey(atom, polarity)) => vec![no_key(atom, polarity)],
            Some(Origin::Own(key, own)) => {
                let text = format!("{} is our key, and {own} our definition", self.sets.names().show_atom(key.into()));
                vec![Outline::new(text, self.definition(&own, row))]
            }
            Some(Origin::Certificates(name)) => self.certified(name, row),
            None => Vec::new(),
        }
    }

    /// The issuer is to be absent from the definition, and then the row is to be in the list.
    pub(super) fn vetted(&mut self, issuer: &Term, list: &List, by: &Identifier, scope: &Scope, row: &Row) -> Vec<Outline> {
        let vetting = match self.vetting(issuer, by, scope) {
            Ok(vetting) => vetting,
            Err(stopped) => return stopped,
        };
        let unvetted = plain(ExpressionKind::List { issuer: issuer.clone(), list: list.clone() });
        let listed = self.sets.standing(&unvetted, scope, row).unwrap_or(Standing::certain(false));
        let text = guard(listed, &format!("{} in {}", self.show_row(row), self.sets.show(&unvetted, scope)));
        vec![vetting, Outline::new(text, self.list(issuer, list, scope, row))]
    }

    /// That the issuer is absent from the definition; or why the list has no rows.
    pub(super) fn vetting(&mut self, issuer: &Term, by: &Identifier, scope: &Scope) -> Result<Outline, Vec<Outline>> {
        let atom = value(self.sets.names(), scope, issuer).ok_or_else(Vec::new)?;
        if atom.key().is_none() {
            return Err(vec![no_key(atom, Polarity::Plus)]);
        }
        let row = Row::from([atom]);
        let compromised = self.sets.standing(&plain(ExpressionKind::Defined(by.clone())), &Scope::default(), &row);
        let absent = compromised.map_or(Standing::certain(false), Standing::turned);
        let text = guard(absent, &format!("{} not in {}", self.show_row(&row), by.text));
        let vetting = Outline::new(text, self.definition(&by.text, &row));
        match absent.holds {
            true => Ok(vetting),
            false => Err(vec![vetting]),
        }
    }

    /// The certificate that holds; or those that do not, and what is not held.
    fn certified(&self, list: Name, row: &Row) -> Vec<Outline> {
        let about = self.sets.evidence.about(list, row);
        let (holding, others): (Vec<Found>, Vec<Found>) = about.into_iter().partition(|found| found.certificate.validity.holds_at(self.minute));
        if let Some(first) = holding.first() {
            let same = match holding.len() {
                1 => None,
                2 => Some(Outline::line("another certificate says the same")),
                count => Some(Outline::line(format!("{} other certificates say the same", count - 1))),
            };
            return [self.found(first)].into_iter().chain(same).collect();
        }
        let mut outlines: Vec<Outline> = others.iter().take(MOST_SHOWN).map(|found| self.found(found)).collect();
        let refused = self.sets.evidence.refused(list, row).take(MOST_SHOWN);
        outlines.extend(refused.map(|(filed, refusal)| Outline::line(format!("{}: such a certificate got {refusal}", filing(Some(filed))))));
        outlines.push(self.not_held(list, &self.show_row(row)));
        outlines
    }

    /// A certificate, below the links that it counts by.
    fn found(&self, found: &Found) -> Outline {
        let certificate = Outline::line(self.certificate(&found.certificate));
        found.way.iter().rev().fold(certificate, |inside, link| Outline::new(self.link(link), vec![inside]))
    }

    fn certificate(&self, certificate: &Certificate) -> String {
        let filed = self.sets.evidence.filing(Kind::Certificate, &certificate.words());
        let list = Name { key: certificate.key, number: certificate.name, polarity: certificate.polarity };
        let said = self.says("certified", list, &self.show_row(&certificate.row));
        let (first, end) = (certificate.validity.first, certificate.validity.end);
        let term = match (self.minute < first, self.minute < end) {
            (true, _) => format!("but only from {} on", When(first)),
            (false, true) => format!("from {} to {}", When(first), When(end)),
            (false, false) => format!("but that ended {}", When(end)),
        };
        format!("{}: {said}, {term}", filing(filed))
    }

    fn link(&self, link: &Link) -> String {
        let says = match link.polarity {
            Polarity::Plus => "contains",
            Polarity::Minus => "is within",
        };
        let filed = self.sets.evidence.filing(Kind::Link, &link.words());
        format!("{}: {} {says} {}", filing(filed), self.show_list(link.list()), self.show_list(link.other_list()))
    }

    /// The certificate that would decide it, and from whom.
    pub(super) fn not_held(&self, list: Name, row: &str) -> Outline {
        let mut text = format!("{}: {}, for a term that has {}", self.would, self.says("certifies", list, row), When(self.minute));
        let linked: Vec<String> = self.sets.evidence.reached(list).iter().skip(1).map(|(name, _)| self.show_list(*name)).collect();
        if !linked.is_empty() {
            let more = if linked.len() > MOST_SHOWN { format!(" and {} more", linked.len() - MOST_SHOWN) } else { String::new() };
            let shown = linked[..linked.len().min(MOST_SHOWN)].join(", ");
            text += &format!("; or the same is certified of a list that it is linked to: {shown}{more}");
        }
        Outline::line(text)
    }

    /// `alma certifies that (7) is not in withdrawn (2 -)`
    fn says(&self, certifies: &str, list: Name, row: &str) -> String {
        let Name { key, number, polarity } = list;
        let is = match polarity {
            Polarity::Plus => "is in",
            Polarity::Minus => "is not in",
        };
        let (issuer, shown) = (self.sets.names().show_atom(key.into()), self.show_list(list));
        let named = shown.split_once('.').map(|(_, name)| name).filter(|name| !name.starts_with(|first: char| first.is_ascii_digit()));
        match named {
            Some(name) => format!("{issuer} {certifies} that {row} {is} {name} ({number} {polarity})"),
            None => format!("{issuer} {certifies} that {row} {is} list {number} {polarity}"),
        }
    }

    fn show_list(&self, Name { key, number, polarity }: Name) -> String {
        self.sets.names().show_list(key, number, polarity)
    }
}

/// A guard behind the word for how it stands.
pub(super) fn guard(standing: Standing, text: &str) -> String {
    format!("{:<11} {text}", standing.passes())
}

pub(super) fn no_key(atom: Atom, polarity: Polarity) -> Outline {
    Outline::line(match polarity {
        Polarity::Plus => format!("{atom} is no key: its + lists have no rows"),
        Polarity::Minus => format!("{atom} is no key: its − lists have all rows"),
    })
}

/// `point 4, came 2027-01-02 09:30`
fn filing(filed: Option<Filed>) -> String {
    match filed {
        Some(Filed { point, came }) => format!("point {point}, came {}", When::at(came)),
        None => "held".into(),
    }
}
