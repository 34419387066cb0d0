//! The lists of crates, and the numbers of decisions.

use crate::files;

const ARCHITECTURE: &str = "docs/ARCHITECTURE.md";
const DECISIONS: &str = "docs/DECISIONS.md";

#[test]
fn crates_txt_lists_the_folders_of_crates() {
    alike(files::crates(), "crates.txt", folders(), "crates/");
}

/// Those with code that rt reads: what is unfinished waits as text.
fn folders() -> Vec<String> {
    let has_code = |name: &String| {
        let roots = ["lib.rt", "main.rt"].map(|root| format!("crates/{name}/src/{root}"));
        roots.iter().any(|root| files::exists(root))
    };
    files::names("crates")
        .into_iter()
        .filter(has_code)
        .collect()
}

/// In the numbered layers each crate stands once, outside parentheses; and nothing else does but a
/// folder.
#[test]
fn the_architecture_names_every_crate_once() {
    let text = files::text(ARCHITECTURE);
    let layers = text.lines().filter(|line| is_numbered(line));
    let mut named: Vec<String> = layers.flat_map(outside_parentheses).collect();
    named.retain(|name| !(name.ends_with('/') && files::exists(name)));
    alike(named, ARCHITECTURE, files::crates(), "crates.txt");
}

/// Both lists have the same names, each once.
fn alike(left: Vec<String>, left_place: &str, right: Vec<String>, right_place: &str) {
    for (names, place, others) in [(&left, left_place, &right), (&right, right_place, &left)] {
        for name in names {
            let times = names.iter().filter(|other| *other == name).count();
            assert_eq!(times, 1, "{place} has {name} more than once");
        }
        let more: Vec<&String> = names.iter().filter(|name| !others.contains(name)).collect();
        assert!(more.is_empty(), "{place} alone has {more:?}");
    }
}

#[test]
fn the_architecture_has_check_times_of_crates_alone() {
    let text = files::text(ARCHITECTURE);
    let crates = files::crates();
    let mut times = 0;
    for item in text
        .lines()
        .filter(|line| line.starts_with("**What a check costs**"))
        .flat_map(costs)
    {
        let (name, seconds) = item
            .split_once(' ')
            .unwrap_or_else(|| panic!("no time: {item}"));
        assert!(
            crates.iter().any(|krate| krate == name),
            "{ARCHITECTURE}: no crate {name}"
        );
        assert!(seconds.parse::<u32>().is_ok(), "{ARCHITECTURE}: {item}");
        times += 1;
    }
    assert!(times > 0, "{ARCHITECTURE}: no check times");
}

/// `name seconds`, from the first colon to the first semicolon.
fn costs(line: &str) -> Vec<&str> {
    let (_, list) = line.split_once(": ").expect("a list");
    list.split(';')
        .next()
        .expect("a list")
        .split(", ")
        .collect()
}

fn is_numbered(line: &str) -> bool {
    let number = line.split_once(". **").map(|(number, _)| number);
    number.is_some_and(|number| number.parse::<usize>().is_ok())
}

/// What stands in backticks there.
fn outside_parentheses(line: &str) -> Vec<String> {
    let (mut depth, mut name) = (0, None);
    let mut names = Vec::new();
    for c in line.chars() {
        match (c, name.take()) {
            ('`', None) => name = Some(String::new()),
            ('`', Some(ended)) if depth == 0 => names.push(ended),
            ('`', Some(_)) => {}
            (c, Some(begun)) => name = Some(begun + &c.to_string()),
            ('(', None) => depth += 1,
            (')', None) => depth -= 1,
            _ => {}
        }
    }
    names
}

#[test]
fn every_cited_decision_exists() {
    let decided = decided();
    let mut cited: Vec<(String, usize)> = Vec::new();
    for path in sources() {
        let text = files::text(&path);
        cited.extend(
            after_the_word(&text)
                .into_iter()
                .map(|number| (path.clone(), number)),
        );
    }
    let decisions = files::text(DECISIONS);
    let map = files::text("docs/SPECIFICATION-MAP.md");
    let (_, read) = map
        .split_once("## Read with care")
        .expect("the section that cites decisions");
    for (path, text) in [
        (DECISIONS, decisions.as_str()),
        ("docs/SPECIFICATION-MAP.md", read),
    ] {
        cited.extend(
            in_parentheses(text)
                .into_iter()
                .map(|number| (path.to_string(), number)),
        );
    }
    assert!(!cited.is_empty());
    let missing: Vec<_> = cited
        .iter()
        .filter(|(_, number)| !decided.contains(number))
        .collect();
    assert!(
        missing.is_empty(),
        "cited, but not in {DECISIONS}: {missing:?}"
    );
}

/// The numbers of the decisions, each of which stands once.
fn decided() -> Vec<usize> {
    let text = files::text(DECISIONS);
    let numbered = text.lines().filter(|line| is_numbered(line));
    let number = |line: &str| {
        line.split_once('.')
            .and_then(|(number, _)| number.parse().ok())
    };
    let decided: Vec<usize> = numbered.filter_map(number).collect();
    for (i, number) in decided.iter().enumerate() {
        assert!(
            !decided[..i].contains(number),
            "{DECISIONS}: {number} twice"
        );
    }
    decided
}

/// Every text of the repository.
fn sources() -> Vec<String> {
    let endings = [".md", ".rs", ".rt", ".antt", ".edit"];
    let mut sources = ["README.md", "crates.txt", "test", "simulate", "cagvost"]
        .map(String::from)
        .to_vec();
    for folder in ["docs", "crates", "host", "examples"] {
        sources.extend(files::under(folder, &endings));
    }
    sources
}

/// `decision 1`, `decisions 1, 2 and 3`
fn after_the_word(text: &str) -> Vec<usize> {
    let mut cited = Vec::new();
    for (at, word) in text.match_indices("ecision") {
        let rest = text[at + word.len()..].trim_start_matches('s');
        let words = rest
            .split(|c: char| c.is_whitespace() || c == ',')
            .filter(|w| !w.is_empty());
        let words = words
            .skip_while(|word| *word == "//" || *word == "--")
            .filter(|word| *word != "and");
        let number = |word: &str| {
            let digits = word
                .find(|c: char| !c.is_ascii_digit())
                .unwrap_or(word.len());
            word[..digits].parse::<usize>().ok()
        };
        cited.extend(words.map_while(number));
    }
    cited
}

/// `(1)`, `(1, 2)`
fn in_parentheses(text: &str) -> Vec<usize> {
    let inside = text
        .split('(')
        .skip(1)
        .filter_map(|rest| rest.split_once(')'));
    let numbers = |(inside, _): (&str, &str)| {
        inside
            .split(", ")
            .map(|number| number.parse().ok())
            .collect::<Option<Vec<usize>>>()
    };
    inside.filter_map(numbers).flatten().collect()
}
