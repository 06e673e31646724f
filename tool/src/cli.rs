//! The commands and their arguments, as `--help` shows them.

use crate::when::When;
use clap::{Args, Parser, Subcommand, ValueEnum};
use clap_complete::Shell;
use std::path::PathBuf;

/// Policies as text, certificates from files, tables that say what they promise.
///
/// Every policy, query and certificate goes to the proved engine as words, and what is shown is what the engine says.
#[derive(Parser)]
#[command(name = "txindurbe", version, max_term_width = 100, after_help = "Exit status: 0 answered, 1 refused, 2 usage.")]
pub struct Cli {
    #[command(subcommand)]
    pub command: Command,
    /// Colours in errors and warnings
    #[arg(long, global = true, value_enum, default_value_t = Colour::Auto)]
    pub colour: Colour,
}

#[derive(Clone, Copy, PartialEq, Eq, ValueEnum)]
pub enum Colour {
    Auto,
    Always,
    Never,
}

const TEST_HELP: &str = "\
Example:
  txindurbe test examples/public.test

Lines of such a file; each that says what `is` expected is a test:
  policy public.qcm                      # starts anew, nothing is filed
  minute 2027-03-20
  file (7) in alma.released from 2027-01-01 to 2027-07-01 is Filed
  file (7) not in alma.withdrawn from 2027-01-01 to 2027-07-01
  link alma.released contains vla.released is Filed
  ask query is lower { (7) }             # the policy's own query, or an expression
  ask alma.withdrawn is upper all but { (7) }
  ask alma.withdrawn minus alma.withdrawn is refused 6
  member (8) of query is unknown";

#[derive(Subcommand)]
pub enum Command {
    /// Judge a policy and its query: the verdict of each, and what is wrong where
    #[command(after_help = "Example:\n  txindurbe check examples/public.qcm")]
    Check(CheckArguments),
    /// Write policies the one way that the formatter does
    #[command(after_help = "Example:\n  txindurbe fmt --check examples/public.qcm")]
    Fmt(FmtArguments),
    /// Turn a policy into the engine's words, or words into a policy
    #[command(after_help = "Example:\n  txindurbe words examples/public.qcm > public.words\n  txindurbe words --back public.words")]
    Words(WordsArguments),
    /// Make a new, empty archive
    #[command(after_help = "Example:\n  txindurbe init visibilities.archive")]
    Init(InitArguments),
    /// File certificates and links
    #[command(after_help = "Example:\n  txindurbe file visibilities.archive examples/certificates.csv --names examples/public.qcm")]
    File(FileArguments),
    /// Ask a query
    #[command(after_help = "Example:\n  txindurbe query visibilities.archive examples/public.qcm --minute 2027-03-20")]
    Query(QueryArguments),
    /// List the names that certificates and links were filed for
    #[command(after_help = "Example:\n  txindurbe names visibilities.archive --names examples/public.qcm")]
    Names(NamesArguments),
    /// List the filings, in order, with their replies
    #[command(after_help = "Example:\n  txindurbe log visibilities.archive --from 3")]
    Log(LogArguments),
    /// Say why a row is in the answer, or what is missing, guard by guard
    #[command(after_help = "Example:\n  txindurbe why visibilities.archive examples/public.qcm '(7)' --minute 2027-03-20")]
    Why(WhyArguments),
    /// Print what a citation of a table needs
    #[command(after_help = "Example:\n  txindurbe cite visibilities.archive examples/public.qcm --minute 2027-03-20 > table.cite")]
    Cite(CiteArguments),
    /// Ask again what a citation says, at that point, and compare
    #[command(after_help = "Example:\n  txindurbe verify visibilities.archive examples/public.qcm table.cite")]
    Verify(VerifyArguments),
    /// Run a file of policies, filings and expected answers
    #[command(after_help = TEST_HELP)]
    Test(TestArguments),
    /// Print a script that completes commands and options
    #[command(after_help = "Example:\n  txindurbe completions bash > ~/.local/share/bash-completion/completions/txindurbe")]
    Completions(CompletionsArguments),
}

#[derive(Args)]
pub struct CheckArguments {
    /// A policy, as text
    pub policy: PathBuf,
    /// Judge this query instead of the file's own
    #[arg(long, value_name = "EXPRESSION")]
    pub ask: Option<String>,
    /// Warn of what the certificates of this archive show
    #[arg(long, value_name = "ARCHIVE")]
    pub archive: Option<PathBuf>,
    #[command(flatten)]
    pub point: PointArguments,
}

#[derive(Args)]
pub struct FmtArguments {
    /// Policies; each is rewritten in place
    #[arg(required = true)]
    pub policies: Vec<PathBuf>,
    /// Change nothing: exit with 1 if the formatter would
    #[arg(long)]
    pub check: bool,
}

#[derive(Args)]
pub struct WordsArguments {
    /// A policy as text; with --back a file of words, - for standard input
    pub file: PathBuf,
    /// From words to text
    #[arg(long)]
    pub back: bool,
    /// Write keys as kN
    #[arg(long, conflicts_with = "back")]
    pub keys: bool,
}

#[derive(Args)]
pub struct InitArguments {
    /// The archive's file, which must not be there yet
    pub archive: PathBuf,
    /// What citations call it; without one, 16 random digits
    #[arg(long)]
    pub id: Option<String>,
}

#[derive(Args)]
pub struct FileArguments {
    /// The archive's file
    pub archive: PathBuf,
    /// Certificates or links as CSV (.csv) or JSON lines (.jsonl); - for standard input
    ///
    /// Certificates have the fields key, row, says (`in` for a + list, `not in` for a − list), list, first and end; links have key, list, says (`contains`
    /// for + lists, `within` for − lists), other_key and other_list.
    #[arg(required = true)]
    pub files: Vec<PathBuf>,
    /// Take the names of keys and lists from this policy
    #[arg(long, value_name = "POLICY")]
    pub names: Option<PathBuf>,
    /// When they came, if not now
    #[arg(long, value_name = "DATE")]
    pub came: Option<When>,
    /// What standard input is, and files that are named otherwise
    #[arg(long, value_enum)]
    pub input: Option<Input>,
    /// Show the refused ones and the counts alone
    #[arg(long, short)]
    pub quiet: bool,
}

#[derive(Clone, Copy, PartialEq, Eq, ValueEnum)]
pub enum Input {
    Csv,
    Jsonl,
}

#[derive(Args)]
pub struct QueryArguments {
    #[command(flatten)]
    pub asked: AskedArguments,
    #[arg(long, value_enum, default_value_t = Form::Table)]
    pub format: Form,
    /// Refuse an answer that does not promise this much; an exact one promises both
    #[arg(long, value_enum)]
    pub require: Option<Promise>,
}

/// What is asked, of which archive.
#[derive(Args)]
pub struct AskedArguments {
    /// The archive's file
    pub archive: PathBuf,
    /// A policy, as text
    pub policy: PathBuf,
    /// Ask this instead of the file's own query
    #[arg(long, value_name = "EXPRESSION")]
    pub ask: Option<String>,
    #[command(flatten)]
    pub point: PointArguments,
}

/// Which certificates are read.
#[derive(Args)]
pub struct PointArguments {
    /// As after this many filings, if not all
    #[arg(long, value_name = "POINT")]
    pub at: Option<u64>,
    /// At this minute: its number, or a date as 2027-03-20 or 2027-03-20T12:30 (UTC); if none, now
    #[arg(long, value_name = "MINUTE|DATE")]
    pub minute: Option<When>,
}

#[derive(Clone, Copy, PartialEq, Eq, ValueEnum)]
pub enum Form {
    Table,
    Csv,
    Json,
}

#[derive(Clone, Copy, PartialEq, Eq, ValueEnum)]
pub enum Promise {
    Lower,
    Upper,
    Exact,
}

#[derive(Args)]
pub struct NamesArguments {
    /// The archive's file
    pub archive: PathBuf,
    /// Take the names of keys and lists from this policy
    #[arg(long, value_name = "POLICY")]
    pub names: Option<PathBuf>,
    #[command(flatten)]
    pub point: PointArguments,
}

#[derive(Args)]
pub struct LogArguments {
    /// The archive's file
    pub archive: PathBuf,
    /// Take the names of keys and lists from this policy
    #[arg(long, value_name = "POLICY")]
    pub names: Option<PathBuf>,
    /// The first point shown
    #[arg(long, value_name = "POINT")]
    pub from: Option<u64>,
    /// The last point shown
    #[arg(long, value_name = "POINT")]
    pub to: Option<u64>,
    /// One JSON object a line
    #[arg(long)]
    pub json: bool,
}

#[derive(Args)]
pub struct WhyArguments {
    #[command(flatten)]
    pub asked: AskedArguments,
    /// The row, as in a policy: '(7)', '(alma, 7)'
    pub row: String,
}

#[derive(Args)]
pub struct CiteArguments {
    #[command(flatten)]
    pub asked: AskedArguments,
}

#[derive(Args)]
pub struct VerifyArguments {
    /// The archive's file
    pub archive: PathBuf,
    /// The policy that was cited, as text
    pub policy: PathBuf,
    /// What `cite` printed; - for standard input
    pub citation: PathBuf,
    /// The query that was cited, if it is not the file's own
    #[arg(long, value_name = "EXPRESSION")]
    pub ask: Option<String>,
}

#[derive(Args)]
pub struct TestArguments {
    /// Files of tests
    #[arg(required = true)]
    pub files: Vec<PathBuf>,
}

#[derive(Args)]
pub struct CompletionsArguments {
    #[arg(value_enum)]
    pub shell: Shell,
}
