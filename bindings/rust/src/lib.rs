//! Txindurbe for Rust: file certificates and links, ask queries at a minute, get tables marked lower, upper or exact.
//!
//! ```
//! use txindurbe::{
//!     variable, Certificate, Date, Definition, Engine, Expression, Guard, Key, Link, Links, Membership, Minute, Policy, Polarity, Row, Store, Table,
//!     Validity,
//! };
//!
//! const OUR_KEY: Key = Key::new(9);
//! const RELEASED: u16 = 1;
//! const WITHDRAWN: u16 = 2;
//! const PUBLIC: u16 = 10;
//!
//! fn main() -> Result<(), Box<dyn std::error::Error>> {
//!     let (observatory, partner) = (Key::new(1), Key::new(2));
//!     let observation = Row::from([7]);
//!
//!     // Certificates arrive, for the first semester of 2027; their signatures have been checked elsewhere.
//!     let semester = Validity::from_dates(Date::day(2027, 1, 1), Date::day(2027, 7, 1))?;
//!     let mut store = Store::new();
//!     store.file(&Certificate::listed(partner, RELEASED, observation, semester))?;
//!     store.file(&Certificate::not_listed(observatory, WITHDRAWN, observation, semester))?;
//!
//!     // The observatory says that whatever its partner released, it released too.
//!     let mut links = Links::new();
//!     links.file(&Link::containing(observatory, RELEASED, partner, RELEASED))?;
//!
//!     // A curator's policy: each x that is released and not withdrawn.
//!     let public = Expression::each(
//!         [
//!             Guard::Draw(vec![variable("x")], Expression::list(observatory, RELEASED, Polarity::Plus)),
//!             Guard::Absent(vec![variable("x")], Expression::list(observatory, WITHDRAWN, Polarity::Minus)),
//!         ],
//!         [variable("x")],
//!     );
//!     let policy = Policy::new(OUR_KEY, &[Definition::new("public", PUBLIC, Polarity::Plus, public)])?;
//!
//!     // An astronomer's search for what is public, in March.
//!     let now = Minute::from_date(Date::day(2027, 3, 20))?;
//!     let query = policy.query(&Expression::defined("public"))?;
//!     let answer = Engine::new().query(&policy, &query, now, &store, &links)?;
//!
//!     // Whether an observation is public, the answer says. That 8 is not listed does not mean that it is not public.
//!     assert_eq!(answer.contains(&observation), Membership::Yes);
//!     assert_eq!(answer.contains(&Row::from([8])), Membership::Unknown);
//!     match answer.table() {
//!         Table::Lower(rows) => println!("these rows, whatever is in the lists that we do not hold: {rows}"),
//!         Table::Upper(rows) => println!("no rows but these: {rows}"),
//!         Table::Exact(rows) => println!("just these rows: {rows}"),
//!     }
//!     assert_eq!(answer.table().to_string(), "at least (7)");
//!     Ok(())
//! }
//! ```
//!
//! The engine behind it is proved to do what its documents say, on every input. This crate gives it types and owns its areas. A policy that is to rely on no
//! compromised key is written by the external rules and rewritten ([`Policy::rewrite`]). Before you show a table, read
//! - [`Table`]: what lower, upper and exact promise about lists that the archive holds in part;
//! - [`Polarity`]: the + list and the − list of one number are two lists;
//! - [`Rows`]: no set lists over 128 rows, and what would is refused;
//! - [`Validity`]: a certificate is read only while its term lasts;
//! - [`Link`]: what is certified of one list may count for others;
//! - [`Format`]: whether a policy matches rows that are wider than its patterns;
//! - [`Policy`]: names under our own key stand for the policy's definitions.
//!
//! What the engine refuses comes back as a [`Refusal`], with the rule in words. Programs are linked with the engine's archive, `libcapi.a`: `bash run` at the
//! top of the project makes it, and `TXINDURBE_LIB` names its folder if it is elsewhere.

#![deny(missing_docs)]
#![deny(unsafe_code)]

#[allow(unsafe_code)]
pub mod calls;
mod engine;
mod expression;
mod filing;
mod key;
mod links;
mod minute;
mod name;
mod policy;
mod refusal;
mod row;
mod saved;
pub mod sizes;
mod store;
mod table;
mod words;

pub use engine::{Answer, Engine};
pub use expression::{variable, Expression, Guard, Term, Unresolved};
pub use filing::Filing;
pub use key::{Atom, Key};
pub use links::{Link, Links};
pub use minute::{Date, Minute, Validity};
pub use name::{Name, Polarity};
pub use policy::{Definition, Format, Policy, Query};
pub use refusal::{Part, Refusal};
pub use row::{Row, WrongWidth};
pub use saved::LoadError;
pub use store::{Certificate, Store};
pub use table::{Membership, Rows, Table, Verdict};
