//! What can be asked, and the help for it.

#![expect(unused_qualifications, reason = "clap's derive writes them")]

use clap::{Args, Parser, Subcommand};
use std::path::PathBuf;

/// Decides whether a buyer's policy lies inside a consent. Every verdict is the proved library's.
#[derive(Debug, Parser)]
#[command(
    name = "gimbuka",
    version,
    after_help = FILES,
    arg_required_else_help = true,
    subcommand_required = true,
    subcommand_help_heading = "Verbs",
    subcommand_value_name = "VERB"
)]
pub struct Arguments {
    #[command(subcommand)]
    pub verb: Verb,
}

const FILES: &str = "\
Files:
  A text is in OWL 2 functional style: declarations and axioms in a vocabulary's file, which may be as
  an OWL editor saves it, Policy(..) in a policy's. A policy may have a name:
  Policy(Annotation(rdfs:label \"alice\") ..).
  A file with a byte 0 in its first 64 KB is words: a table of 32-bit words, the least byte first.
  A consent is a file, a file with many policies, a folder of files, or a file that ends in .parts:
  for each policy a count and so many words. A dash is standard input.

Exit status:
  0  all compliant (equal, possible, yes)
  1  some not
  2  trouble: something could not be read or written, or was refused
  Where the reader of a pipe has gone, as in `gimbuka check .. | head -1`, it stops with 2 and says nothing.

Examples:
  gimbuka check vocabulary.txt buyer.txt consents.txt
  gimbuka check --why --name bob vocabulary.txt buyer.txt consents.txt
  gimbuka picture --name bob vocabulary.txt buyer.txt consents.txt > bob.svg
  gimbuka group vocabulary.txt consents.txt

`gimbuka help VERB` says more of each.";

#[derive(Debug, Subcommand)]
pub enum Verb {
    /// Which consents hold a buyer's policy?
    #[command(long_about = CHECK)]
    Check(Check),
    /// Which policies mean the same as a first one?
    #[command(long_about = EQUAL)]
    Equal(Equal),
    /// Can anyone be in a policy?
    #[command(long_about = POSSIBLE)]
    Possible(Possible),
    /// Is a case that is handed in a countermodel?
    #[command(long_about = VERIFY)]
    Verify(Verify),
    /// Which consents mean the same?
    #[command(long_about = GROUP)]
    Group(Group),
    /// What does a vocabulary hold, and where is a mistake in it?
    #[command(long_about = VOCABULARY)]
    Vocabulary(Vocabulary),
    /// Draws a countermodel as an SVG
    #[command(long_about = PICTURE)]
    Picture(Picture),
    /// Reads an answer of the program `comply` in words
    #[command(long_about = ALOUD)]
    Aloud(Aloud),
    /// Writes a text as the bytes that the program `comply` reads
    #[command(long_about = ENCODE)]
    Encode(Encode),
    /// Writes the bytes that the program `comply` reads as a text
    #[command(long_about = DECODE)]
    Decode(Decode),
}

#[derive(Debug, Args)]
pub struct Form {
    /// Tell the reason below each line
    #[arg(long)]
    pub why: bool,
    /// Print one JSON object a line, for programs
    #[arg(long)]
    pub json: bool,
}

#[derive(Debug, Args)]
pub struct Chosen {
    /// Take only the policies of this name; can be given several times
    #[arg(long = "name", value_name = "NAME")]
    pub names: Vec<String>,
}

const CHECK: &str = "\
Which consents hold a buyer's policy? There is one line for each consent, in order, and then a count:
  NAME: compliant      the buyer's policy lies inside the consent
  NAME: outside        it does not; with --why, a case to the contrary
  NAME: refused N: ..  the library cannot decide, and says why
A consent without a name is called by its file, and by its line where the file has several. What
cannot be read is told on standard error, with file, line and column, and the rest goes on. A collection
is read as a stream on all cores (RAYON_NUM_THREADS=1 for one), and needs no more memory if it is long.

With one file alone, that is a text with all: the vocabulary, the buyer's policy, then the consents.";

const CHECK_MORE: &str = "\
Keys of an object with --json: name, file, line, verdict (compliant, outside, refused or unread); for
outside, term and combination, and with --why also individuals, facts and countermodel, whose words
`verify` and `picture --model` read from such a line; for refused, refusal and message; for unread,
column and message. The last object has the key count.

Exit status: 0 all compliant, 1 some outside, 2 trouble.

Examples:
  gimbuka check vocabulary.txt buyer.txt consents.txt
  gimbuka check --why vocabulary.txt buyer.txt alice.txt folder/
  zcat consents.gz | gimbuka check --json vocabulary.txt buyer.txt -
  gimbuka check --why examples/heart_rate.txt";

#[derive(Debug, Args)]
#[command(
    after_help = CHECK_MORE,
    override_usage = "gimbuka check [OPTIONS] VOCABULARY BUYER CONSENT..\n       gimbuka check [OPTIONS] TEXT"
)]
pub struct Check {
    #[command(flatten)]
    pub form: Form,
    #[command(flatten)]
    pub chosen: Chosen,
    /// The vocabulary, or a text with all
    pub vocabulary: PathBuf,
    /// The buyer's policy
    #[arg(requires = "consents")]
    pub buyer: Option<PathBuf>,
    /// Consents: files or folders
    #[arg(value_name = "CONSENT")]
    pub consents: Vec<PathBuf>,
}

const EQUAL: &str = "\
Which policies mean the same as a first one? Equal means that nobody can tell the two apart: every
buyer gets the same verdict with either. There is one line for each policy but the first, equal or
different, and then a count; with --why, a case that is in one and not in the other.

With one file alone, that is a text with all: the vocabulary, the first policy, then the others.";

const EQUAL_MORE: &str = "\
Keys with --json are those of `check`, with the verdicts equal and different, and with side: 1 where
the case is in the first policy, 2 where it is in the other.

Exit status: 0 all equal, 1 some different, 2 trouble.

Examples:
  gimbuka equal vocabulary.txt alice.txt bob.txt
  gimbuka equal --why examples/not_same.txt";

#[derive(Debug, Args)]
#[command(
    after_help = EQUAL_MORE,
    override_usage = "gimbuka equal [OPTIONS] VOCABULARY FIRST OTHER..\n       gimbuka equal [OPTIONS] TEXT"
)]
pub struct Equal {
    #[command(flatten)]
    pub form: Form,
    #[command(flatten)]
    pub chosen: Chosen,
    /// The vocabulary, or a text with all
    pub vocabulary: PathBuf,
    /// The first policy
    #[arg(requires = "others")]
    pub first: Option<PathBuf>,
    /// Policies: files or folders
    #[arg(value_name = "OTHER")]
    pub others: Vec<PathBuf>,
}

const POSSIBLE: &str = "\
Can anyone be in a policy? There is one line for each, possible or impossible, and then a count. A
policy that is impossible asks for what the vocabulary rules out, in each of its terms; with --why,
the first term that is possible.

With one file alone, that is a text with all: the vocabulary, then the policies.";

const POSSIBLE_MORE: &str = "\
Keys with --json are those of `check`, with the verdicts possible, which has term, and impossible.

Exit status: 0 all possible, 1 some impossible, 2 trouble.

Examples:
  gimbuka possible vocabulary.txt consents.txt
  gimbuka possible examples/impossible.txt";

#[derive(Debug, Args)]
#[command(
    after_help = POSSIBLE_MORE,
    override_usage = "gimbuka possible [OPTIONS] VOCABULARY POLICY..\n       gimbuka possible [OPTIONS] TEXT"
)]
pub struct Possible {
    #[command(flatten)]
    pub form: Form,
    #[command(flatten)]
    pub chosen: Chosen,
    /// The vocabulary, or a text with all
    pub vocabulary: PathBuf,
    /// Policies: files or folders
    #[arg(value_name = "POLICY")]
    pub policies: Vec<PathBuf>,
}

const VERIFY: &str = "\
Is a case that is handed in a countermodel? Yes, where all that the vocabulary states is true in it,
and its individual 1 is in the buyer's policy and outside the consent. The model check that answers is
proved, and does not ask where the case comes from.

MODEL holds the lines of the program `comply` (`outside 1 4`, which may be left out, then `member 5 2`,
`edge 1 1 2`, `value 1 4 59`), or words, or a line of `gimbuka check --why --json`.";

const VERIFY_MORE: &str = "\
A case of `equal` with side 2 is checked with the two policies changed over.
Keys with --json: model, verdict (yes, no or refused); for refused, refusal and message.

Exit status: 0 yes, 1 no, 2 trouble.

Example:
  gimbuka verify --name bob vocabulary.txt buyer.txt consents.txt case.txt";

#[derive(Debug, Args)]
#[command(
    after_help = VERIFY_MORE,
    override_usage = "gimbuka verify [OPTIONS] VOCABULARY BUYER CONSENT MODEL"
)]
pub struct Verify {
    /// Print a JSON object, for programs
    #[arg(long)]
    pub json: bool,
    /// The consent's name, where its file has several
    #[arg(long, value_name = "NAME")]
    pub name: Option<String>,
    /// The vocabulary
    pub vocabulary: PathBuf,
    /// The buyer's policy
    pub buyer: PathBuf,
    /// The consent
    pub consent: PathBuf,
    /// The case
    pub model: PathBuf,
}

const GROUP: &str = "\
Which consents mean the same? Consents of one set may share one filed copy: every buyer gets the same
verdict with each of them. Each set is printed with the names of its consents, in the order of the
collection; below each set but the first stands why it is not the first; with --why, a case that is in
the first consent of one and not of the other.

That two consents are in one set, or in two, is always an answer of the proved library, or their words
are the same. A consent that the library cannot compare is told on standard error, and is a set alone.

With one file alone, that is a text with all: the vocabulary, then the consents.";

const GROUP_MORE: &str = "\
Keys with --json: set, consents (each with name, file and line); from the second set on, from, side,
term and combination, and with --why also individuals, facts and countermodel. The last object has the
key count. All the different consents stand in memory.

Exit status: 0 all mean the same, 1 there are several sets, 2 trouble.

Example:
  gimbuka group vocabulary.txt consents.txt";

#[derive(Debug, Args)]
#[command(
    after_help = GROUP_MORE,
    override_usage = "gimbuka group [OPTIONS] VOCABULARY CONSENT..\n       gimbuka group [OPTIONS] TEXT"
)]
pub struct Group {
    #[command(flatten)]
    pub form: Form,
    /// The vocabulary, or a text with all
    pub vocabulary: PathBuf,
    /// Consents: files or folders
    #[arg(value_name = "CONSENT")]
    pub consents: Vec<PathBuf>,
}

const VOCABULARY: &str = "\
What does a vocabulary hold? The proved library reads its text, and there is one line: how many
classes, roles, features and axioms it has, and which roles and features are many-valued.

An OWL editor saves more than that. Prefixes, IRIs, annotations and the like state nothing: they are
left out, and standard error says what was. Names that the library has no spelling for are handed to it
in another, and are told as they are written. Whatever else there is may state something, and is never
left out: it is refused, with its line and column.
  refused 41: ..  the text has another form than the library reads
  refused 42: ..  a name is declared twice or not at all, or there are too few or too many
  refused 1: ..   over 1,024 records are needed: one for each axiom, and one for each role or feature
                  that is not stated functional
Of several the first in this order is told. All verbs read a vocabulary so.

As in OWL, a role or a feature of a text may have many values unless it is stated functional. Of words
it is the other way round: one has one value unless a record makes it many-valued.";

const VOCABULARY_MORE: &str = "\
Keys with --json: file, verdict (read, refused or unread); for read, classes, roles, features, axioms,
many_valued, which has names, left_out, which has a count for each kind, and with --fragment also
fragment; for refused, line, column, refusal and message; for unread, message.

Exit status: 0 it is read, 2 trouble.

Examples:
  gimbuka vocabulary examples/editor.ofn
  gimbuka vocabulary --fragment examples/editor.ofn > fragment.ofn
  gimbuka vocabulary --exact fragment.ofn";

#[derive(Debug, Args)]
#[command(after_help = VOCABULARY_MORE)]
pub struct Vocabulary {
    /// Hand the file's bytes to the library as they are, and leave nothing out
    #[arg(long)]
    pub exact: bool,
    /// Print the text that the library reads instead, which is OWL again
    #[arg(long)]
    pub fragment: bool,
    /// Print a JSON object, for programs
    #[arg(long)]
    pub json: bool,
    /// The vocabulary
    pub file: PathBuf,
}

const PICTURE: &str = "\
Draws why a buyer's policy does not lie inside a consent: the countermodel as an SVG, on standard
output, for a browser. Individuals are boxes with their classes and values, roles are arrows, and
individual 1 is marked.

With one file alone, that is a text with all: the vocabulary, the buyer's policy and the consent.";

const PICTURE_MORE: &str = "\
Exit status: 0 the picture is written, 1 there is none to draw since the consent is compliant (standard
error says so), 2 trouble.

Examples:
  gimbuka picture --name bob vocabulary.txt buyer.txt consents.txt > bob.svg
  gimbuka picture --model case.txt vocabulary.txt > case.svg
  gimbuka picture examples/heart_rate.txt > heart_rate.svg";

#[derive(Debug, Args)]
#[command(
    after_help = PICTURE_MORE,
    override_usage = "gimbuka picture [OPTIONS] VOCABULARY BUYER CONSENT\n       \
                      gimbuka picture [OPTIONS] TEXT\n       \
                      gimbuka picture --model MODEL VOCABULARY"
)]
pub struct Picture {
    /// The consent's name, where its file has several
    #[arg(long, value_name = "NAME", conflicts_with = "model")]
    pub name: Option<String>,
    /// Draw this case, as `verify` reads it
    #[arg(long, value_name = "MODEL", conflicts_with = "buyer")]
    pub model: Option<PathBuf>,
    /// The vocabulary, or a text with all
    pub vocabulary: PathBuf,
    /// The buyer's policy
    #[arg(requires = "consent")]
    pub buyer: Option<PathBuf>,
    /// The consent
    pub consent: Option<PathBuf>,
}

const ALOUD: &str = "\
Reads an answer of the program `comply` in words, with the names of a vocabulary.";

const ALOUD_MORE: &str = "\
Exit status: 0 it is read, whatever the answer is; 2 trouble.

Example:
  gimbuka encode TEXT | comply | gimbuka aloud TEXT";

#[derive(Debug, Args)]
#[command(after_help = ALOUD_MORE)]
pub struct Aloud {
    /// The vocabulary, or a text with all
    pub vocabulary: PathBuf,
    /// The answer
    #[arg(default_value = "-")]
    pub answer: PathBuf,
}

const ENCODE: &str = "\
Writes a vocabulary and two policies as the bytes that the program `comply` reads: three parts, each a
count and so many words, the least byte first.";

const ENCODE_MORE: &str = "\
Exit status: 0 it is written, 2 trouble.

Examples:
  gimbuka encode vocabulary.txt buyer.txt alice.txt | comply
  gimbuka encode examples/heart_rate.txt | comply
  gimbuka encode < examples/heart_rate.txt | comply";

#[derive(Debug, Args)]
#[command(
    after_help = ENCODE_MORE,
    override_usage = "gimbuka encode [TEXT]\n       gimbuka encode [OPTIONS] VOCABULARY BUYER CONSENT"
)]
pub struct Encode {
    /// The consent's name, where its file has several
    #[arg(long, value_name = "NAME")]
    pub name: Option<String>,
    /// The vocabulary, or a text with all
    #[arg(default_value = "-")]
    pub vocabulary: PathBuf,
    /// The buyer's policy
    #[arg(requires = "consent")]
    pub buyer: Option<PathBuf>,
    /// The consent
    pub consent: Option<PathBuf>,
}

const DECODE: &str = "\
Writes the bytes that the program `comply` reads as a text. Classes, roles and features are called
:C1, :r1, :f1 and so on. `gimbuka encode` of the text gives the same words again, but for records that
no link reaches.";

const DECODE_MORE: &str = "\
Exit status: 0 it is written, 2 trouble.

Example:
  gimbuka decode question.bytes > question.txt";

#[derive(Debug, Args)]
#[command(after_help = DECODE_MORE)]
pub struct Decode {
    /// The bytes
    #[arg(default_value = "-")]
    pub bytes: PathBuf,
}

/// The files that a verb is given, so that standard input is asked for once.
pub fn files(verb: &Verb) -> Vec<&PathBuf> {
    match verb {
        Verb::Check(it) => {
            [&it.vocabulary].into_iter().chain(&it.buyer).chain(&it.consents).collect()
        }
        Verb::Equal(it) => {
            [&it.vocabulary].into_iter().chain(&it.first).chain(&it.others).collect()
        }
        Verb::Possible(it) => [&it.vocabulary].into_iter().chain(&it.policies).collect(),
        Verb::Verify(it) => vec![&it.vocabulary, &it.buyer, &it.consent, &it.model],
        Verb::Vocabulary(it) => vec![&it.file],
        Verb::Group(it) => [&it.vocabulary].into_iter().chain(&it.consents).collect(),
        Verb::Picture(it) => [&it.vocabulary]
            .into_iter()
            .chain(&it.buyer)
            .chain(&it.consent)
            .chain(&it.model)
            .collect(),
        Verb::Aloud(it) => vec![&it.vocabulary, &it.answer],
        Verb::Encode(it) => {
            [&it.vocabulary].into_iter().chain(&it.buyer).chain(&it.consent).collect()
        }
        Verb::Decode(it) => vec![&it.bytes],
    }
}
