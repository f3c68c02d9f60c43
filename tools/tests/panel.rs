//! `panel`: what the page shows in a browser is what the functions give, over plays by the address,
//! by clicks, by keys and with steps taken back; it is one file; its picture in README.md is made.

mod common;

use common::{answered, called, example, example_bytes, text, READING};
use outside::generate::{self, cases, Limits};
use outside::reference::{
    pairs_of, Formula, Kind, Node, Pair, Quantifier, StrategyAnswer, Variable,
};
use outside::truth;
use std::path::{Path, PathBuf};
use std::process::Command;

const ROOT: &str = concat!(env!("CARGO_MANIFEST_DIR"), "/..");
const DRIVER: &str = include_str!("panel/driver.html");
const WAYS: [&str; 4] = ["address", "clicks", "keys", "undo"];

/// A folder that is gone with the test.
struct Folder(PathBuf);

impl Folder {
    fn new(name: &str) -> Folder {
        let place = std::env::temp_dir().join(format!("plumanchor-{name}-{}", std::process::id()));
        std::fs::create_dir_all(&place).expect("a folder");
        Folder(place)
    }

    fn write(&self, name: &str, bytes: &[u8]) -> PathBuf {
        let place = self.0.join(name);
        std::fs::write(&place, bytes).expect("a file");
        place
    }

    /// What Debian's browser writes on a file of this folder.
    fn browsed(&self, options: &[&str], file: &str) -> String {
        let profile = format!("--user-data-dir={}", self.0.join("profile").display());
        let output = Command::new("timeout")
            .args(["300", "chromium", "--disable-dev-shm-usage"])
            .args(["--headless", "--no-sandbox", "--disable-gpu", "--hide-scrollbars", &profile])
            .args(["--allow-file-access-from-files", "--virtual-time-budget=600000"])
            .args(options)
            .arg(format!("file://{}/{file}", self.0.display()))
            .output()
            .expect("Debian's package chromium");
        assert!(output.status.success(), "{output:?}");
        text(output.stdout)
    }

    /// The lines that a page leaves in its element 'pre'.
    fn told(&self, page: &str) -> Vec<String> {
        let dom = self.browsed(&["--dump-dom"], page);
        let (_, rest) = dom.split_once("<pre>").expect("the lines");
        let (lines, _) = rest.split_once("</pre>").expect("their end");
        let plain =
            |line: &str| line.replace("&lt;", "<").replace("&gt;", ">").replace("&amp;", "&");
        lines.lines().map(plain).collect()
    }
}

impl Drop for Folder {
    fn drop(&mut self) {
        let _ = std::fs::remove_dir_all(&self.0);
    }
}

/// A formula with the winner's functions by the second reading, and what people call things.
struct Game {
    title: String,
    formula: Formula,
    winner: Quantifier,
    pairs: Vec<Pair>,
    names: Vec<String>,
    guards: Vec<String>,
}

/// The values that variables have so far, by number.
type Values = Vec<Option<bool>>;

impl Game {
    fn new(title: &str, sheet: &[u8]) -> Game {
        let mut buffers = [(); 3].map(|()| vec![0; READING.format.longest_sheet()]);
        let [first, second, output] = &mut buffers;
        let answer = READING.strategy(sheet, first, second, output);
        let StrategyAnswer::Written { verdict, length, .. } = answer else {
            panic!("{title}: {answer:?}")
        };
        let formula = READING.format.parse(sheet).expect("a sheet");
        let strategy = READING.format.parse(&output[..length]).expect("a strategy");
        let names = (0..=formula.highest_variable()).map(|x| x.to_string()).collect();
        Game {
            title: title.to_string(),
            winner: Quantifier::winner(verdict),
            pairs: pairs_of(&strategy.matrix).expect("pairs"),
            formula,
            names,
            guards: Vec::new(),
        }
    }

    /// The same with a circuit's names. Its output is an AND, in one line, of what must hold.
    fn of_circuit(file: &Path) -> Game {
        let path = file.to_str().expect("a path");
        let title = file.file_name().and_then(|name| name.to_str()).expect("a name");
        let mut game = Game::new(title, &answered(&["convert", "--to", "wide", path], &[]));
        for line in text(answered(&["convert", "--to", "names", path], &[])).lines() {
            let (x, name) = line.split_once(' ').expect("a number and a name");
            game.names[x.parse::<usize>().expect("a number")] = name.to_string();
        }
        let circuit = std::fs::read_to_string(file).expect("a circuit");
        let inside = |text: &str| text.split(['(', ')']).nth(1).expect("braces").to_string();
        let output = circuit.lines().find(|line| line.starts_with("output")).map(inside);
        let gate = format!("{} = and", output.expect("an output"));
        let guards = circuit.lines().find(|line| line.starts_with(&gate)).map(inside);
        let guards = guards.expect("an AND");
        game.guards = guards.split(", ").map(|guard| guard.replace('-', "not ")).collect();
        game
    }

    fn switches(&self) -> Vec<Variable> {
        let rows = self.formula.prefix.iter().filter(|row| row.0 != self.winner);
        rows.map(|row| row.1).collect()
    }

    /// What each variable is when the first switches have these values: an answer is given as soon
    /// as all in front of it have theirs.
    fn played(&self, play: &str) -> Values {
        let mut given = vec![false; self.names.len()];
        let mut values = vec![None; self.names.len()];
        for (x, value) in self.switches().into_iter().zip(play.bytes()) {
            given[x] = value == b'1';
            values[x] = Some(given[x]);
        }
        let whole = truth::play(&self.pairs, &given);
        for &(quantifier, x) in &self.formula.prefix {
            if quantifier == self.winner {
                values[x] = Some(whole[x]);
            } else if values[x].is_none() {
                break;
            }
        }
        values
    }

    /// The first row without a value.
    fn next(&self, values: &Values) -> Option<usize> {
        self.formula.prefix.iter().position(|row| values[row.1].is_none())
    }

    /// The turn of a row, counted from 0.
    fn turn(&self, place: usize) -> usize {
        self.formula.prefix[..=place].windows(2).filter(|two| two[0].0 != two[1].0).count()
    }

    /// What the page shows of a play, all but the line with the reasons.
    fn shown(&self, play: &str) -> Vec<String> {
        let values = self.played(play);
        let name = |x: &Variable| self.names[*x].clone();
        let own = |x: &Variable| format!("{} {}", name(x), state(values[*x]));
        let prefix = &self.formula.prefix;
        let answers: Vec<Variable> =
            prefix.iter().filter(|row| row.0 == self.winner).map(|row| row.1).collect();
        let answers: Vec<String> = answers.iter().map(own).collect();
        let switches = self.switches();
        let place = |x| prefix.iter().position(|row| row.1 == x).expect("a row");
        let later =
            |x| self.next(&values).is_some_and(|next| self.turn(place(x)) > self.turn(next));
        let set = |&x: &Variable| {
            let value = values[x].map_or("-", |value| if value { "1" } else { "0" });
            format!("{} {value}{}", self.names[x], if later(x) { " later" } else { "" })
        };
        let set: Vec<String> = switches.iter().map(set).collect();
        let mut rows = Vec::new();
        tell_rows(&self.formula.matrix, &self.names, &values, &self.guards, &mut rows);
        let pairs = switches.iter().zip(play.chars());
        let address: Vec<String> = pairs.map(|(x, value)| format!("{}={value}", name(x))).collect();
        let hash = if address.is_empty() { "" } else { "#" };
        vec![
            format!("switches: {}", set.join(", ")).trim_end().to_string(),
            format!("lamps: {}", answers.join(", ")).trim_end().to_string(),
            format!("functions: {}", answers.join(", ")).trim_end().to_string(),
            format!("matrix: {}", rows.join("; ")),
            format!("outcome: {}", self.outcome(&values)),
            format!("address: {hash}{}", address.join(",")).trim_end().to_string(),
        ]
    }

    fn outcome(&self, values: &Values) -> String {
        let value = seen(&self.formula.matrix, values);
        let sign = sign(value);
        let word = if value == Some(true) { "Holds" } else { "Fails" };
        match self.next(values) {
            Some(_) if value.is_none() => format!("{sign} Your turn: set {}.", self.to_set(values)),
            Some(_) => format!("{sign} {word} already."),
            None => {
                let winner = if value == Some(true) { "the valves" } else { "the press" };
                format!("{sign} {word}: {winner} won.")
            }
        }
    }

    /// The switches of this turn that have no value.
    fn to_set(&self, values: &Values) -> String {
        let rows = &self.formula.prefix[self.next(values).expect("a turn")..];
        let turn = rows.iter().take_while(|row| row.0 != self.winner).map(|row| row.1);
        let names: Vec<&str> =
            turn.filter(|&x| values[x].is_none()).map(|x| &self.names[x][..]).collect();
        let noun = if self.winner == Quantifier::Exists { "signal" } else { "valve" };
        let plural = if names.len() == 1 { "" } else { "s" };
        let listed = match names.len() {
            0..=4 => names.join(", "),
            more => format!("{} and {} more", names[..3].join(", "), more - 3),
        };
        format!("the {noun}{plural} {listed}")
    }

    /// The table over all values of the switches behind those that have one, where it isn't whole.
    fn table(&self, play: &str) -> Vec<String> {
        let count = self.switches().len();
        let (free, from) = if count <= 8 { (count, "") } else { (count - play.len(), play) };
        if free > 8 {
            let (plays, more, plural) = (1 << free, free - 8, if free == 9 { "" } else { "es" });
            return vec![format!(
                "table: {plays} plays are too many for a table of 256. \
                 Set {more} more switch{plural}: then those that are left are here."
            )];
        }
        let plays = (0..1_usize << free).map(|number| {
            let digits: String =
                (0..free).rev().map(|at| if number >> at & 1 == 1 { '1' } else { '0' }).collect();
            format!("{from}{digits}")
        });
        let verdict = if self.winner == Quantifier::Exists { "holds" } else { "fails" };
        let number = 1_usize << free;
        let (plural, here) =
            (if number == 1 { "" } else { "s" }, if from.is_empty() { "" } else { " from here" });
        let mut lines = vec![format!("table: {number} play{plural}{here}: it {verdict} in each.")];
        lines.extend(plays.map(|values| {
            let set = self.played(&values);
            let digit = |row: &(Quantifier, Variable)| match set[row.1].expect("a value") {
                true => "1 ",
                false => "0 ",
            };
            let cells: String = self.formula.prefix.iter().map(digit).collect();
            let value = seen(&self.formula.matrix, &set);
            let word = if value == Some(true) { "holds" } else { "fails" };
            let mark = if values == play { "now" } else { "row" };
            format!("{mark}: {} {word} {cells}", sign(value)).trim_end().to_string()
        }));
        lines
    }

    /// What the strategy answered last, while the play goes on.
    fn answered(&self, values: &Values) -> String {
        let Some(next) = self.next(values) else { return String::new() };
        let turn = self.turn(next);
        let row = |&(at, &(quantifier, _)): &(usize, &(Quantifier, Variable))| {
            quantifier == self.winner && self.turn(at) + 1 == turn
        };
        let told = |(_, &(_, x)): (usize, &(Quantifier, Variable))| {
            format!("{} = {}", self.names[x], u8::from(values[x] == Some(true)))
        };
        let answers = self.formula.prefix.iter().enumerate().filter(row).map(told);
        let answers: Vec<String> = answers.collect();
        match &answers[..] {
            [] => String::new(),
            _ => format!("The strategy answered {}.", answers.join(", ")),
        }
    }

    /// What the page says beside the outcome. The values that it says decide it must do so alone.
    fn assert_detail(&self, play: &str, detail: &str) {
        let values = self.played(play);
        let value = seen(&self.formula.matrix, &values);
        let go_on = match (self.next(&values), value) {
            (Some(_), Some(_)) => format!("You can go on: set {}.", self.to_set(&values)),
            _ => String::new(),
        };
        let rest = detail.strip_prefix("detail:").expect("the detail").trim_start();
        let rest =
            rest.strip_prefix(&self.answered(&values)).and_then(|rest| rest.strip_suffix(&go_on));
        let reasons = rest.unwrap_or_else(|| panic!("{} {play}: {detail}", self.title)).trim();
        let failing = |(guard, child): (&String, &Node)| {
            let rest = reasons.strip_prefix(&format!("'{guard}' fails. "));
            rest.filter(|_| seen(child, &values) == Some(false))
        };
        let guards = self.guards.iter().zip(self.formula.matrix.children());
        let reasons = match (value, &self.guards[..]) {
            (Some(false), [_, ..]) => guards.filter_map(failing).next().expect("a failing guard"),
            _ => reasons,
        };
        let mut alone = vec![None; values.len()];
        match (value, reasons.strip_prefix("Decided by ")) {
            (None, _) => assert_eq!(reasons, "", "{detail}"),
            (Some(_), None) => assert_eq!(reasons, "It is so whatever is set."),
            (Some(_), Some(pairs)) => {
                let (pairs, more) =
                    pairs.trim_end_matches('.').split_once(" and ").unwrap_or((pairs, ""));
                for pair in pairs.trim_end_matches('.').split(", ") {
                    let (name, digit) = pair.split_once(" = ").expect("a value");
                    let x = self.names.iter().position(|known| known == name).expect("a name");
                    alone[x] = Some(digit == "1");
                    assert_eq!(values[x], alone[x], "{detail}");
                }
                // A list of more than nine is cut behind eight.
                if !more.is_empty() {
                    assert!(more.ends_with(" more") && pairs.split(", ").count() == 8, "{detail}");
                    return;
                }
            }
        }
        if value.is_some() {
            assert_eq!(
                seen(&self.formula.matrix, &alone),
                value,
                "{} {play}: {detail}",
                self.title
            );
        }
    }
}

fn state(value: Option<bool>) -> &'static str {
    value.map_or("waits", |value| if value { "1 on" } else { "0 off" })
}

fn sign(value: Option<bool>) -> &'static str {
    value.map_or("○", |value| if value { "✓" } else { "✗" })
}

/// What a tree is under the values that are there, if they say.
fn seen(node: &Node, values: &Values) -> Option<bool> {
    match node {
        Node::Lit { positive, var } => values[*var].map(|value| value == *positive),
        Node::Op { kind, children } => {
            let decides = *kind == Kind::Or;
            let children: Vec<Option<bool>> =
                children.iter().map(|child| seen(child, values)).collect();
            match children.contains(&Some(decides)) {
                true => Some(decides),
                false => (!children.contains(&None)).then_some(!decides),
            }
        }
    }
}

/// Each row in preorder: its sign, and what it says.
fn tell_rows(
    node: &Node,
    names: &[String],
    values: &Values,
    guards: &[String],
    rows: &mut Vec<String>,
) {
    let words = match node {
        Node::Lit { positive, var } => {
            format!("{}{}", if *positive { "" } else { "not " }, names[*var])
        }
        Node::Op { kind, children } => match (kind, children.len()) {
            (Kind::And, 0) => "always".to_string(),
            (Kind::Or, 0) => "never".to_string(),
            (Kind::And, count) => format!("all of {count}"),
            (Kind::Or, count) => format!("one of {count}"),
        },
    };
    rows.push(format!("{}{words}", sign(seen(node, values))));
    for (at, child) in node.children().iter().enumerate() {
        let first = rows.len();
        tell_rows(child, names, values, &[], rows);
        if let (Some(guard), [_, ..]) = (guards.get(at), child.children()) {
            let sign = sign(seen(child, values));
            rows[first] = format!("{sign}{guard}: {}", &rows[first][sign.len()..]);
        }
    }
}

/// What is told of pages, each by its file, ways and plays.
fn driven(folder: &Folder, pages: &[(String, &[&str], &[String])]) -> Vec<String> {
    let list: Vec<String> =
        pages.iter().map(|(file, ways, plays)| format!("[{file:?},{ways:?},{plays:?}]")).collect();
    let driver = DRIVER.replace("{{list}}", &format!("[{}]", list.join(",")));
    folder.write("driver.html", driver.as_bytes());
    folder.told("driver.html")
}

/// Plays pages in the browser, and holds what they show against the second reading.
fn assert_shown(folder: &Folder, games: &[(Game, Vec<String>)]) -> usize {
    let pages: Vec<(String, &[&str], &[String])> = games
        .iter()
        .enumerate()
        .map(|(at, (_, plays))| (format!("{at}.html"), &WAYS[..], &plays[..]))
        .collect();
    let told = driven(folder, &pages);
    let mut lines = told.iter().map(|line| line.trim_end());
    let mut next = || lines.next().unwrap_or("nothing");
    let mut plays_made = 0;
    for (game, plays) in games {
        let verdict = game.winner == Quantifier::Exists;
        assert_eq!(next(), format!("page: {}: {verdict}", game.title));
        for (number, play) in plays.iter().enumerate() {
            let way = WAYS[number % WAYS.len()];
            assert_eq!(next(), format!("play: {way} {play}").trim_end(), "{}", game.title);
            let mut shown = game.shown(play);
            let address = shown.pop().expect("lines");
            for line in shown {
                assert_eq!(next(), line, "{} {way} {play}", game.title);
            }
            game.assert_detail(play, next());
            assert_eq!(next(), address, "{} {way} {play}", game.title);
            plays_made += 1;
        }
        for width in [1024, 390] {
            let sizes = format!("width {width}: too small: nothing; too wide: false");
            assert_eq!(next(), sizes, "{}", game.title);
        }
        for line in game.table(plays.last().map_or("", |play| play)) {
            assert_eq!(next(), line, "{}", game.title);
        }
    }
    assert_eq!(next(), "end");
    plays_made
}

/// A page of a file, in the folder under its number.
fn add(
    folder: &Folder,
    games: &mut Vec<(Game, Vec<String>)>,
    game: Game,
    plays: Vec<String>,
    file: &Path,
) {
    let page = answered(&["panel", file.to_str().expect("a path")], &[]);
    folder.write(&format!("{}.html", games.len()), &page);
    games.push((game, plays));
}

fn bits(count: usize, number: usize) -> String {
    (0..count).map(|at| if number >> at & 1 == 1 { '1' } else { '0' }).collect()
}

#[test]
fn pages_show_what_the_functions_give() {
    let folder = Folder::new("panel");
    let mut games = Vec::new();
    for name in [
        "press-line-early",
        "equal-after",
        "equal-before",
        "semantic-tree",
        "nnf-for-all",
        "nnf-exists",
        "one-tautology",
        "and-of-nothing",
        "or-of-nothing",
    ] {
        let game = Game::new(&format!("{name}.sheet"), &example_bytes(name));
        let count = game.switches().len();
        let plays = (0..4).map(|number| bits(count, number * 5 + 1)).collect();
        add(&folder, &mut games, game, plays, Path::new(&example(name)));
    }
    // With names, and plays whole and in part.
    for (name, plays) in [
        ("press-line", &["10", "11", "01", "00", "1", "0", "", "10", "01"][..]),
        ("print-line", &["10110001", "1", "1000", "00000000"]),
        ("print-line-one-air", &["100", "10101101", "0", "110010110"]),
    ] {
        let file = Path::new(ROOT).join(format!("examples/{name}.qcir"));
        let plays = plays.iter().map(|play| play.to_string()).collect();
        add(&folder, &mut games, Game::of_circuit(&file), plays, &file);
    }
    // Ten switches are more than a table has, unless some are set. The title has markup.
    let equal = |x, y| {
        let both = |sign: i32| Node::and(vec![Node::literal(sign * x), Node::literal(sign * y)]);
        Node::or(vec![both(1), both(-1)])
    };
    let mut prefix: Vec<_> = (1..=10).map(|x| (Quantifier::ForAll, x)).collect();
    prefix.push((Quantifier::Exists, 11));
    let sheet = READING.format.encode(&Formula { prefix, matrix: equal(10, 11) });
    let title = "a{{data}}<b onclick=1>&\"c'.sheet";
    let file = folder.write(title, &sheet);
    for plays in [vec!["1101001011".to_string(), "1".to_string()], vec!["01".to_string()]] {
        add(&folder, &mut games, Game::new(title, &sheet), plays, &file);
    }
    cases(16, |rng| {
        let sheet = generate::sheet(rng, Limits { variables: 7, ..Limits::small(READING.format) });
        let name = format!("random {}.sheet", games.len());
        let file = folder.write(&name, &sheet);
        let game = Game::new(&name, &sheet);
        let count = game.switches().len();
        let play = |at: usize| bits(count.min(if at == 2 { 2 } else { 8 }), at * 37 + count);
        let plays = (0..4).map(play).collect();
        add(&folder, &mut games, game, plays, &file);
    });
    assert!(games
        .iter()
        .any(|(game, _)| game.winner == Quantifier::ForAll && game.switches().len() > 2));
    let plays = assert_shown(&folder, &games);
    assert!(plays > 100, "{plays}");
}

/// The page of the press line, in a folder.
fn press_line(folder: &Folder) -> String {
    let circuit = format!("{ROOT}/examples/press-line.qcir");
    let page = text(answered(&["panel", &circuit], &[]));
    folder.write("press.html", page.as_bytes());
    page
}

/// What is told of a page under each of some addresses.
fn told_at(folder: &Folder, file: &str, addresses: &[&str]) -> Vec<Vec<String>> {
    let addresses: Vec<String> = addresses.iter().map(|address| address.to_string()).collect();
    let lines = driven(folder, &[(file.to_string(), &["given"], &addresses)]);
    lines.split(|line| line.starts_with("play: ")).skip(1).map(<[String]>::to_vec).collect()
}

fn line<'a>(lines: &'a [String], word: &str) -> &'a str {
    let found = lines.iter().find_map(|line| line.strip_prefix(word)?.strip_prefix(": "));
    found.unwrap_or_else(|| panic!("{word} in {lines:?}"))
}

/// What can't be taken from an address is named, and the rest is played.
#[test]
fn addresses_are_read_as_far_as_they_go() {
    let folder = Folder::new("panel-addresses");
    press_line(&folder);
    let known = [
        ("feed=1,jam=0", "lift 1 on, stop 1 on", ""),
        ("feed%3D1%2Cjam%3D1", "lift 1 on, stop 0 off", ""),
        ("feed=1,lift=0,jam=1", "lift 1 on, stop 0 off", "lift=0"),
        ("jam=0", "lift waits, stop waits", "jam=0"),
        ("feed=2,jam,x=1,%", "lift waits, stop waits", "feed=2, jam, x=1, %"),
        ("feed=0,feed=1=1,feed=1", "lift 0 off, stop waits", "feed=1=1, feed=1"),
    ];
    let told = told_at(&folder, "press.html", &known.map(|case| case.0));
    assert_eq!(told.len(), known.len());
    for (lines, (address, lamps, untaken)) in told.iter().zip(known) {
        assert_eq!(line(lines, "lamps"), lamps, "{address}");
        let detail = line(lines, "detail");
        let said = detail.split_once("Not taken from the address: ").map_or("", |said| said.1);
        assert_eq!(said.trim_end_matches('.'), untaken, "{address}");
    }
}

/// The page works its answers out, so of a strategy that is handed in it shows which plays break it.
#[test]
fn a_strategy_that_loses_is_seen_to() {
    let folder = Folder::new("panel-loses");
    let circuit = format!("{ROOT}/examples/press-line.qcir");
    let page = |lines: &str| {
        let file = folder.write("mine.txt", lines.as_bytes());
        called(&["panel", &circuit, file.to_str().expect("a path")], &[])
    };
    let loses = page("lift = feed\nstop = feed\n");
    assert_eq!((loses.status, &loses.message[..]), (0, ""));
    folder.write("loses.html", &loses.output);
    let told = told_at(&folder, "loses.html", &["feed=1,jam=0", "feed=1,jam=1"]);
    assert_eq!(line(&told[0], "outcome"), "✓ Holds: the valves won.");
    assert_eq!(line(&told[1], "lamps"), "lift 1 on, stop 1 on");
    let outcome = line(&told[1], "outcome");
    assert_eq!(outcome, "✗ Fails: the press won. This play breaks the strategy!");
    assert_eq!(line(&told[1], "table"), "4 plays: it holds in 2, fails in 2.");
    let standing = |lines: &str| {
        let page = text(page(lines).output);
        page.split("\"standing\":\"")
            .nth(1)
            .and_then(|rest| Some(rest.split_once('"')?.0.to_string()))
    };
    assert_eq!(standing("lift = feed\nstop = feed\n").as_deref(), Some("loses"));
    assert_eq!(standing("stop = jam xor feed\nlift = feed\n").as_deref(), Some("wins"));
    // A valve that would have to know what comes later is none.
    let early = page("lift = jam\nstop = feed\n");
    assert!(early.status == 1 && early.message.contains("refused 27"), "{}", early.message);
}

/// Where there is no strategy, there is no page.
#[test]
fn no_strategy_no_page() {
    for (words, input, status, message) in [
        (&["panel"][..], example_bytes("crowded"), 1, "stopped: no verdict"),
        (&["panel"], example_bytes("cut-short"), 1, "refused 3"),
        (&["panel", "--side", "exists"], example_bytes("press-line"), 2, "--side"),
        (&["panel", "-", "-"], example_bytes("press-line"), 2, "standard input"),
    ] {
        let ended = called(words, &input);
        assert_eq!((ended.status, ended.output.len()), (status, 0), "{words:?}");
        assert!(ended.message.contains(message), "{}", ended.message);
    }
}

/// Nothing is fetched, nothing is run that a name brings along, and the same file has the same page.
#[test]
fn a_page_is_one_file() {
    let folder = Folder::new("panel-file");
    let page = press_line(&folder);
    assert_eq!(page, press_line(&folder));
    assert!(page.contains("default-src 'none'"));
    for word in ["http:", "https:", " src=", "url(", "@import", "eval(", "innerHTML", "{{"] {
        assert!(!page.contains(word), "{word}");
    }
    assert_eq!(page.matches("<script").count(), 2);
    let file = folder.write("{{script}}<script>&\".sheet", &example_bytes("equal-after"));
    let page = text(answered(&["panel", file.to_str().expect("a path")], &[]));
    assert_eq!(page.matches("<script").count(), 2);
    assert!(page.contains("<h1>{{script}}&lt;script&gt;&amp;&quot;.sheet</h1>"));
    let page = text(answered(&["panel"], &example_bytes("equal-after")));
    assert!(page.contains("<h1>standard input</h1>"));
}

const PICTURE: &str = "docs/pictures/panel.png";
const SIZE: (usize, usize) = (1024, 768);

/// `PANEL_WRITE=1` keeps the picture.
#[test]
fn the_picture_is_one() {
    let folder = Folder::new("panel-picture");
    press_line(&folder);
    let fresh = folder.0.join("fresh.png");
    let (width, height) = SIZE;
    let screenshot = format!("--screenshot={}", fresh.display());
    let size = format!("--window-size={width},{height}");
    folder.browsed(&[&screenshot, &size], "press.html#feed=1,jam=0");
    let kept = Path::new(ROOT).join(PICTURE);
    if std::env::var_os("PANEL_WRITE").is_some() {
        std::fs::copy(&fresh, &kept).expect("the picture");
    }
    std::fs::copy(&kept, folder.0.join("kept.png")).expect("the picture");
    let pictures = r#"<img src="fresh.png"><img src="kept.png">"#;
    let page = include_str!("panel/picture.html").replace("{{pictures}}", pictures);
    folder.write("picture.html", page.as_bytes());
    let told = folder.told("picture.html");
    assert_eq!(told.len(), 2, "{told:?}");
    for line in told {
        let numbers: Vec<usize> = line.split(' ').map_while(|word| word.parse().ok()).collect();
        let [w, h, colours, commonest] = numbers[..] else { panic!("{line}") };
        assert_eq!((w, h), SIZE);
        // A blank page has one colour.
        assert!(colours > 100 && commonest < 90, "{line}");
    }
}
