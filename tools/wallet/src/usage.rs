//! The commands and their options: one table, from which a call is read and
//! help is written.

/// All commands: what a call has, the options besides `-o` and `--help`, and what
/// the command does.
const COMMANDS: &str = "\
check WALLET | --query --json | says whether the checker accepts the wallet, and what it has
list WALLET | --query --count --sets --json | lists all minimal sets that prove the query
why WALLET | --query --json | says what stands in the way where a set is missing
prove WALLET [SET] | --query --numbers --json | writes the record of a listed set, or of each
verify WALLET RECORD | --record --set --query --json | verifies a proof record, and shows its tree and words
draw WALLET RECORD | --record --set --query | draws a proof record as a picture, SVG
report WALLET | --query | writes a page about the query and its answer, HTML
encode WALLET | --query | writes the listing program's input, binary
explain WALLET < OUTPUT | --query | says in words what the listing program printed
decode < INPUT | --names | writes the text of a listing program's input
upgrade < INPUT | | adds marks to an input of the base layout
help [COMMAND] | | says how the tool is called, or a command of it
";

/// All options, with what follows them and what they are for.
const OPTIONS: &str = "\
--query QUERY  asks QUERY, such as \"D in A.r within 2\", instead of the wallet's own
--count        prints how many sets there are, and nothing else
--sets         prints the numbers of the sets, one a line, and nothing else
--numbers      prints the numbers of the record of one SET, and nothing else
--json         prints one JSON object (docs/JSON.md)
--set SET      takes the record that the library writes for a listed set
--record FILE  takes the record from a file; `-` is standard input
--names WALLET writes in the names of this wallet
-o FILE        writes to a file instead of standard output; also --output
--help         says this
";

/// What the words of a call stand for.
const WORDS: &str = "\
WALLET         a file with the wallet's text; `-` is standard input
[SET]          a number of the list
RECORD         its numbers; a middle may be a principal's name: 1 School 2 0 3 0
OUTPUT         what the listing program printed for the wallet
INPUT          an input of the listing program, binary
[COMMAND]      a command
";

/// A command.
#[derive(Clone, Copy, Debug, PartialEq, Eq)]
pub struct Known {
    /// Its name.
    pub name: &'static str,
    /// What a call has.
    call: &'static str,
    /// Its options.
    options: &'static str,
    /// What it does.
    does: &'static str,
}

/// An option: its name, and what follows it, if anything does.
pub type Choice = (&'static str, Option<&'static str>);

impl Known {
    /// All commands.
    pub fn all() -> impl Iterator<Item = Known> {
        COMMANDS.lines().map(|line| {
            let mut columns = line.split('|').map(str::trim);
            let mut next = || columns.next().unwrap_or_default();
            let (call, options, does) = (next(), next(), next());
            Known {
                name: call.split(' ').next().unwrap_or_default(),
                call,
                options,
                does,
            }
        })
    }

    /// The command of a name.
    pub fn named(name: &str) -> Option<Known> {
        Known::all().find(|known| known.name == name)
    }

    /// The option of a name, if the command has it.
    pub fn option(&self, name: &str) -> Option<Choice> {
        let mut all = self.rows().map(choice);
        all.find(|(own, _)| *own == name)
    }

    /// Whether it reads something else than a wallet from standard input.
    pub fn reads_standard_input(&self) -> bool {
        self.call.contains('<')
    }

    /// The rows of its options.
    fn rows(&self) -> impl Iterator<Item = &'static str> {
        let own = self.options.split(' ').chain(["-o", "--help"]);
        own.filter_map(|name| OPTIONS.lines().find(|row| choice(row).0 == name))
    }

    /// Its usage line.
    pub fn line(&self) -> String {
        let (words, input) = match self.call.split_once(" <") {
            Some((words, input)) => (words, format!(" <{input}")),
            None => (self.call, String::new()),
        };
        let options = self.rows().map(choice).map(|option| match option {
            ("--help", _) => String::new(),
            (name, None) => format!(" [{name}]"),
            (name, Some(value)) => format!(" [{name} {value}]"),
        });
        let options: String = options.collect();
        format!("usage: wallet {words}{options}{input}\n")
    }

    /// All that help says of it.
    pub fn help(&self) -> String {
        let words = self.call.split(' ');
        let words = words.filter_map(|word| WORDS.lines().find(|row| choice(row).0 == word));
        let rows = words.chain(self.rows()).map(|row| format!("  {row}\n"));
        let (first, rest) = self.does.split_at(1);
        let does = format!("{}{rest}", first.to_uppercase());
        format!("{}\n{does}.\n\n{}", self.line(), rows.collect::<String>())
    }
}

/// The option, or the word, that a row is about.
fn choice(row: &'static str) -> Choice {
    let mut words = row.split(' ');
    let name = words.next().unwrap_or_default();
    let is_value = |word: &&str| !word.is_empty() && word.bytes().all(|b| b.is_ascii_uppercase());
    (name, words.next().filter(is_value))
}

/// All that help says of the tool.
pub fn overview() -> String {
    let rows = Known::all().map(|known| format!("  {:<23}  {}\n", known.call, known.does));
    format!(
        "usage: wallet COMMAND ...\n\n{}\n\
         `wallet help COMMAND` says which options a command has, and `wallet --version` which \
         version this is.\nThe wallet's text and the commands are described in docs/WALLET.md.\n",
        rows.collect::<String>()
    )
}
