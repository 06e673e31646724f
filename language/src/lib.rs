//! Policies and queries as text, `.qcm`: parsed, compiled to the engine's words, written back, and each refusal of the engine shown at its place.
//!
//! Nothing here is trusted. The words go to the engine, which judges them; this crate makes them from text and says in the text's own names what the engine says
//! in numbers.
//!
//! ```
//! use txindurbe::{Certificate, Engine, Key, Links, Membership, Minute, Row, Store, Validity};
//! use txindurbe_language::{compile, Sources};
//!
//! let text = "
//!     key alma = k1
//!     list released = 1 +, withdrawn = 2 -
//!     query { (x) | (x) in alma.released, (x) not in alma.withdrawn }
//! ";
//! let mut sources = Sources::default();
//! let source = sources.add("public.qcm", text);
//! let compiled = compile(&sources, source).expect("the engine accepts it");
//! let asked = compiled.query().expect("the file has a query");
//!
//! let (mut store, links) = (Store::new(), Links::new());
//! let (alma, now) = (Key::new(1), Minute::new(0));
//! let always = Validity { first: now, end: Minute::new(u32::MAX) };
//! store.file(&Certificate::listed(alma, 1, [7], always)).expect("it is filed");
//!
//! // Nobody has certified anything of what is not withdrawn, and the compiler says so, at its place.
//! let warnings = compiled.warnings_over(asked, &store, &links, now);
//! assert_eq!(&text[warnings[0].labels[0].span.start..warnings[0].labels[0].span.end], "alma.withdrawn");
//!
//! store.file(&Certificate::not_listed(alma, 2, [7], always)).expect("it is filed");
//! let answer = Engine::new().query(compiled.policy(), &asked.query, now, &store, &links).expect("it is answered");
//! assert_eq!(answer.contains(&Row::from([7])), Membership::Yes);
//! assert!(compiled.warnings_over(asked, &store, &links, now).is_empty());
//! ```

#![forbid(unsafe_code)]

mod compile;
mod declare;
mod decompile;
mod evidence;
mod explain;
mod names;
mod parse;
mod print;
mod problem;
mod program;
mod resolve;
mod say;
pub mod syntax;
mod token;
mod tree;
mod warnings;

pub use compile::{compile, compile_file, Asked, Compiled, DefinitionInfo};
pub use decompile::decompile;
pub use names::Names;
pub use parse::{parse, parse_expression};
pub use print::{print, print_expression};
pub use problem::{Label, Problem, Severity, Source, Sources};
