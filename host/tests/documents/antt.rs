//! What a file in `.antt` imports and declares, with the text of each declaration.

use crate::files;

/// A name that a file imports, with the module that has it.
pub struct Import {
    pub module: String,
    pub name: String,
}

#[derive(Clone, Copy, PartialEq, Eq)]
pub enum Kind {
    Definition,
    Record,
    Data,
}

pub struct Declaration {
    pub name: String,
    pub kind: Kind,
    pub is_public: bool,
    /// A record's fields, a data type's constructors.
    pub members: Vec<String>,
    pub parts: Vec<Part>,
}

/// A signature, a clause, a record's head or one of its fields.
pub struct Part {
    /// The heads of the module and the record around it: their parameters are its own.
    pub outer: Vec<String>,
    /// Fields above it in its record.
    pub fields: Vec<String>,
    /// A clause's patterns.
    pub patterns: Vec<String>,
    pub words: Vec<String>,
}

#[derive(Default)]
pub struct Source {
    pub imports: Vec<Import>,
    pub declarations: Vec<Declaration>,
    /// Blocks of lines that are none of these.
    pub unread: Vec<String>,
}

const MODIFIERS: [&str; 3] = ["pub", "abbrev", "unfoldable"];
const PUNCTUATION: &str = "(){};,";

pub fn read(path: &str) -> Source {
    parse(&files::without_comments(&files::text(path), "--"))
}

pub fn parse(text: &str) -> Source {
    let lines: Vec<&str> = text
        .lines()
        .filter(|line| !line.trim().is_empty())
        .collect();
    let mut source = Source::default();
    source.add(&lines, &[]);
    source
}

impl Source {
    pub fn declaration(&self, name: &str) -> Option<&Declaration> {
        self.declarations.iter().find(|d| d.name == name)
    }

    fn add(&mut self, lines: &[&str], outer: &[String]) {
        for block in blocks(lines) {
            let (head, body) = split_head(&block);
            let (is_public, head) = unmodified(words(&head.join("\n")));
            match head[0].as_str() {
                "use" => self.import(&head),
                "mod" | "unfolding" => {}
                "module" => self.add(body, &[outer, &head].concat()),
                "record" => self.add_type(Kind::Record, is_public, &head, body, outer),
                "data" => self.add_type(Kind::Data, is_public, &head, body, outer),
                _ => self.add_definition(&block, outer),
            }
        }
    }

    /// `use A.B.{x, y}`
    fn import(&mut self, head: &[String]) {
        let open = head.iter().position(|word| word == "{");
        let (module, names) = head.split_at(open.unwrap_or(head.len()));
        let module = module[1..].concat();
        for name in names.iter().filter(|word| is_name(word)) {
            let (module, name) = (module.trim_end_matches('.').to_string(), name.clone());
            self.imports.push(Import { module, name });
        }
    }

    /// `record Name parameters : Type 0 where`, and its fields.
    fn add_type(
        &mut self,
        kind: Kind,
        is_public: bool,
        head: &[String],
        body: &[&str],
        outer: &[String],
    ) {
        let mut declaration = Declaration::new(&head[1], kind, is_public);
        declaration
            .parts
            .push(Part::new(outer, &[], &[], &head[2..]));
        let outer = [outer, head].concat();
        for block in blocks(body) {
            let (_, member) = unmodified(words(&block.join("\n")));
            let fields = match kind {
                Kind::Record => declaration.members.clone(),
                _ => Vec::new(),
            };
            declaration
                .parts
                .push(Part::new(&outer, &fields, &[], &member[1..]));
            declaration.members.push(member[0].clone());
        }
        self.declarations.push(declaration);
    }

    /// A signature `name : type`, or a clause `name patterns = text` of a definition above it.
    fn add_definition(&mut self, block: &[&str], outer: &[String]) {
        let (is_public, block) = unmodified(words(&block.join("\n")));
        let (name, rest) = block.split_first().expect("a block has words");
        if rest.first().is_some_and(|word| word == ":") {
            let mut declaration = Declaration::new(name, Kind::Definition, is_public);
            declaration.parts.push(Part::new(outer, &[], &[], rest));
            self.declarations.push(declaration);
            return;
        }
        let above = self.declarations.iter_mut().rfind(|d| d.name == *name);
        match (above, rest.iter().position(|word| word == "=")) {
            (Some(above), Some(at)) => {
                let part = Part::new(outer, &[], &rest[..at], &rest[at..]);
                above.parts.push(part);
            }
            _ => self.unread.push(block.join(" ")),
        }
    }
}

impl Declaration {
    fn new(name: &str, kind: Kind, is_public: bool) -> Self {
        let (name, members, parts) = (name.to_string(), Vec::new(), Vec::new());
        Declaration {
            name,
            kind,
            is_public,
            members,
            parts,
        }
    }

    /// Whether the word occurs in the declaration's own text, other than in a projection.
    pub fn mentions(&self, word: &str) -> bool {
        let has = |words: &[String]| words.iter().any(|w| w == word);
        let in_part = |part: &Part| has(&part.words) || has(&part.patterns) || has(&part.outer);
        has(&self.members) || self.parts.iter().any(in_part)
    }
}

impl Part {
    fn new(outer: &[String], fields: &[String], patterns: &[String], words: &[String]) -> Self {
        let [outer, fields, patterns, words] =
            [outer, fields, patterns, words].map(<[String]>::to_vec);
        Part {
            outer,
            fields,
            patterns,
            words,
        }
    }

    pub fn is_clause(&self) -> bool {
        self.words.first().is_some_and(|word| word == "=")
    }

    /// The names that are bound here, but for a clause's patterns.
    pub fn bound(&self) -> Vec<&str> {
        let mut bound: Vec<&str> = self.fields.iter().map(String::as_str).collect();
        bound.extend(binders(&self.outer));
        bound.extend(binders(&self.words));
        bound
    }
}

/// `(x y : type)`, `{x : type}`, `λ x y.` and `let x = `
fn binders(words: &[String]) -> Vec<&str> {
    let mut bound = Vec::new();
    for (i, word) in words.iter().enumerate() {
        let end = match word.as_str() {
            "(" | "{" => ":",
            "λ" => ".",
            "let" => "=",
            _ => continue,
        };
        let names = words[i + 1..].iter().map(String::as_str);
        let names: Vec<&str> = names.take_while(|word| is_name(word)).collect();
        if words
            .get(i + 1 + names.len())
            .is_some_and(|word| word == end)
        {
            bound.extend(names);
        }
    }
    bound
}

/// Whether the word can stand for something: it is no punctuation, projection or number.
pub fn is_name(word: &str) -> bool {
    let signs = [":", "=", "→", "λ", ".", "_"];
    let digits = word.chars().all(|c| c.is_ascii_digit());
    !(is_punctuation(word) || signs.contains(&word) || word.starts_with('.') || digits)
}

fn is_punctuation(word: &str) -> bool {
    PUNCTUATION.contains(word)
}

/// Whether `pub` stands before a declaration, and its words without that.
fn unmodified(words: Vec<String>) -> (bool, Vec<String>) {
    let modifiers = words
        .iter()
        .take_while(|word| MODIFIERS.contains(&word.as_str()))
        .count();
    (
        words[..modifiers].iter().any(|word| word == "pub"),
        words[modifiers..].to_vec(),
    )
}

/// Words and punctuation. A full stop at a word's end is a word of its own, and so is each projection:
/// `x.now` is `x` and `.now`.
pub fn words(text: &str) -> Vec<String> {
    let mut spaced = String::new();
    for c in text.chars() {
        match PUNCTUATION.contains(c) {
            true => spaced.extend([' ', c, ' ']),
            false => spaced.push(c),
        }
    }
    spaced.split_whitespace().flat_map(cut).collect()
}

fn cut(word: &str) -> Vec<String> {
    let mut words: Vec<String> = Vec::new();
    for c in word.chars() {
        match words.last_mut() {
            Some(word) if c != '.' || word.ends_with('.') => word.push(c),
            _ => words.push(c.to_string()),
        }
    }
    words
}

/// Lines that belong together: one of the least indentation, every deeper one after it, and those
/// that close its brackets.
fn blocks<'a>(lines: &[&'a str]) -> Vec<Vec<&'a str>> {
    let indentation = |line: &str| line.len() - line.trim_start().len();
    let least = lines
        .iter()
        .map(|line| indentation(line))
        .min()
        .unwrap_or(0);
    let mut blocks: Vec<Vec<&str>> = Vec::new();
    let mut open = 0;
    for line in lines {
        match blocks.last_mut() {
            Some(block) if open > 0 || indentation(line) > least => block.push(line),
            _ => blocks.push(vec![line]),
        }
        open += line.matches(['(', '{']).count() as isize;
        open -= line.matches([')', '}']).count() as isize;
    }
    blocks
}

/// The head of a block, up to the line that ends with `where`, and what follows it.
fn split_head<'a, 'b>(block: &'b [&'a str]) -> (&'b [&'a str], &'b [&'a str]) {
    let end = block.iter().position(|line| line.ends_with(" where"));
    block.split_at(end.map_or(block.len(), |end| end + 1))
}
