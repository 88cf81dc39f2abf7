//! The commands: the words of each, and what help says of it.

/// A command.
#[derive(Clone, Copy, Debug, PartialEq, Eq)]
pub enum Command {
    Check,
    Levels,
    Route,
    Reach,
    Nearest,
    Draw,
    DrawReach,
    Text,
    Convert,
}

/// The answer for scripts.
pub const JSON: &str = "--json";
/// A reach map's rows by their lengths.
pub const NEAREST_FIRST: &str = "--nearest-first";
/// A picture of a reach map.
pub const REACH: &str = "--reach";

impl Command {
    pub const ALL: [Command; 9] = [
        Command::Check,
        Command::Levels,
        Command::Route,
        Command::Reach,
        Command::Nearest,
        Command::Draw,
        Command::DrawReach,
        Command::Text,
        Command::Convert,
    ];

    /// The command that a word names; with or without a reach map, where there
    /// is one of each.
    pub fn named(word: &str, reach: bool) -> Option<Command> {
        let named = || {
            let all = Command::ALL.into_iter();
            all.filter(|command| command.name() == word)
        };
        let exactly = named().find(|command| command.takes(REACH) == reach);
        exactly.or_else(|| named().next())
    }

    pub fn name(self) -> &'static str {
        match self {
            Command::Check => "check",
            Command::Levels => "levels",
            Command::Route => "route",
            Command::Reach => "reach",
            Command::Nearest => "nearest",
            Command::Draw | Command::DrawReach => "draw",
            Command::Text => "text",
            Command::Convert => "convert",
        }
    }

    /// The names of all, each once.
    pub fn names() -> Vec<&'static str> {
        let mut names = Command::ALL.map(Command::name).to_vec();
        names.dedup();
        names
    }

    /// The words that follow the command's name.
    fn usage(self) -> &'static str {
        match self {
            Command::Check | Command::Levels => "FILE",
            Command::Route => "FILE FROM TO TOLERANCE|least",
            Command::Reach => "FILE FROM TOLERANCE FEET",
            Command::Nearest => "FILE FROM TOLERANCE PLACE..",
            Command::Draw => "FILE [FROM TO TOLERANCE|least]",
            Command::DrawReach => "--reach FILE FROM TOLERANCE FEET",
            Command::Text => "TABLE",
            Command::Convert => "FILE 02|03",
        }
    }

    fn about(self) -> &'static str {
        match self {
            Command::Check => "whether a file is in order, and what is wrong where it is not",
            Command::Levels => "each segment's level and what decided it",
            Command::Route => "a shortest way that never goes above a tolerance",
            Command::Reach => "each node within a tolerance and a greatest length",
            Command::Nearest => "the nearest of some places within a tolerance",
            Command::Draw => "a picture of the town, and of a route",
            Command::DrawReach => "a picture of the town, shaded by length from a node",
            Command::Text => "a town's table as network text",
            Command::Convert => "a network of edition 02 as network text of edition 03, or back",
        }
    }

    fn more(self) -> &'static str {
        match self {
            Command::Check => {
                "Says edition, nodes and segments; or the refusal's number, its line and what to mend there.\nThe refused line of a network text stands below that, with a mark under what is wrong, and its fields where one is against the rules; levels, route, reach, nearest and draw show it too.\n--json prints the answer for scripts.\n"
            }
            Command::Levels => {
                "The edition, by whose rules the levels are, and a row for each segment: street, ends, feet, ways, level 1 to 4, and the measure that decided it.\n--json prints the answer for scripts.\n"
            }
            Command::Route => {
                "FROM and TO are nodes, by number or, with a table, by place. TOLERANCE is 1, 2, 3 or 4; least asks for the smallest that has a route.\nThe answer none is proved: no route within the tolerance exists. It then says which tolerance has one.\n--json prints the answer for scripts.\n"
            }
            Command::Reach => {
                "FROM is a node, by number or, with a table, by place. TOLERANCE is 1, 2, 3 or 4, FEET a whole number.\nA row for each node that has a route within the tolerance of at most so many feet, with its least length: in rising node number, or nearest first with --nearest-first.\nThe map is proved: a node that it leaves out has no route within both.\nBelow it stands the share of the town that is reached. A street counts where its level is within the tolerance and both its ends are reached.\n--json prints the answer for scripts.\n"
            }
            Command::Nearest => {
                "FROM and each PLACE are nodes, by number or, with a table, by place. TOLERANCE is 1, 2, 3 or 4.\nOf places that are equally near, it is the one with the lowest node number.\nThe answer none is proved: no route within the tolerance leads to any of them. It then says which tolerance has one.\n--json prints the answer for scripts.\n"
            }
            Command::Draw => {
                "Streets are coloured by level; with FROM, TO and TOLERANCE the route is drawn too. With --reach the town is shaded by length instead: splicereel draw --reach --help.\nWhere the table gives x and y for its nodes, the picture is SVG; otherwise it is DOT, which Graphviz lays out:\n  splicereel draw FILE | dot -Tsvg > town.svg\n"
            }
            Command::DrawReach => {
                "FROM, TOLERANCE and FEET are those of reach. A node that is reached has its least length beside it, and is the darker the nearer it is.\nA street has the shade of its farther end where its level is within the tolerance and both its ends are reached; all else is grey.\nWhere the table gives x and y for its nodes, the picture is SVG; otherwise it is DOT, which Graphviz lays out.\n"
            }
            Command::Text => {
                "The table is checked on the way: what comes out is a text that Read accepts.\n"
            }
            Command::Convert => {
                "02 or 03 is the edition to move to, from the other.\nThe edition, the lengths' width and the head's check change, and nothing else: every level is the same, and every route of the one network is a route of the other. There and back gives the first text.\nEdition 01 has no move, since its levels would change. A network with more nodes or segments than edition 02 has, or with a longer segment, does not move back; what is above the limits is said.\n"
            }
        }
    }

    /// Whether the command has an option of its own, beside help and version.
    pub fn takes(self, option: &str) -> bool {
        match self {
            Command::Check | Command::Levels | Command::Route | Command::Nearest => option == JSON,
            Command::Reach => [JSON, NEAREST_FIRST].contains(&option),
            Command::DrawReach => option == REACH,
            Command::Draw | Command::Text | Command::Convert => false,
        }
    }

    /// The call as it is to be written.
    pub fn line(self) -> String {
        format!("splicereel {} {}", self.name(), self.usage())
    }
}

/// The help on a command, or on all of them.
pub fn help(command: Option<Command>) -> String {
    const FILES: &str = "FILE is a network text or a town's table (Markdown, as in towns/); - is standard input.\n\
         Its edition is 01, 02 or, for a county, 03, and it has at most 16 MiB.\n";
    const STATUS: &str = "Exit status: 0 answered, 1 none, 2 refused or wrong call.\n";
    let Some(command) = command else {
        let lines = Command::ALL.map(|command| (command.line(), command.about()));
        let width = lines.iter().map(|(line, _)| line.len()).max().unwrap_or(0);
        let lines = lines.map(|(line, about)| format!("  {line:<width$}  {about}\n"));
        return format!(
            "{}: bicycle stress levels and least-stress routes on a street network\n\n{}\n{FILES}\
             --json on check, levels, route, reach and nearest prints the answer for scripts. splicereel COMMAND --help says more.\n{STATUS}",
            version(),
            lines.concat()
        );
    };
    format!(
        "{}\n\n{}: {}.\n\n{}\n{FILES}{STATUS}",
        command.line(),
        command.name(),
        command.about(),
        command.more()
    )
}

/// The program's name and version.
pub fn version() -> String {
    format!("splicereel {}", env!("CARGO_PKG_VERSION"))
}
