//! The command `cagvost`: what it prints, what it writes and with which status it ends.

use crate::common;

use cagvost::book::Book;
use common::PAPER_BOOK;
use std::fs::{self, File};
use std::io::Write;
use std::path::{Path, PathBuf};
use std::process::{Command, Stdio};

const GHZ: &str = "examples/ghz.circuit";
const MODEL: &str = "examples/chip.model";

const PAPER: &str =
    "qudits 2 dimension 3\nfourier 0\nsum 0 1\nerror 1 x\nmeasure 0 choose 2\nmeasure 1\n";

fn top() -> PathBuf {
    Path::new(env!("CARGO_MANIFEST_DIR")).join("..")
}

/// How a call ended.
struct Ended {
    status: i32,
    out: Vec<u8>,
    said: String,
}

impl Ended {
    fn text(&self) -> &str {
        std::str::from_utf8(&self.out).expect("text")
    }

    /// It is done, without a word on standard error.
    fn done(self) -> String {
        assert_eq!(
            (self.status, self.said.as_str()),
            (0, ""),
            "{}",
            self.text()
        );
        self.text().to_string()
    }

    /// It ended so, printed nothing, and said these words.
    fn failed(&self, status: i32, words: &str) {
        assert_eq!((self.status, self.text()), (status, ""), "{}", self.said);
        assert!(self.said.starts_with("cagvost: "), "{}", self.said);
        assert!(self.said.contains(words), "{} has no '{words}'", self.said);
    }
}

/// Runs the command at the top of the repository, with these bytes on standard input.
fn call_with(input: &[u8], words: &[&str]) -> Ended {
    let mut child = Command::new(env!("CARGO_BIN_EXE_cagvost"))
        .args(words)
        .current_dir(top())
        .stdin(Stdio::piped())
        .stdout(Stdio::piped())
        .stderr(Stdio::piped())
        .spawn()
        .expect("the command");
    // It may end without reading all.
    _ = child.stdin.take().expect("a pipe").write_all(input);
    let output = child.wait_with_output().expect("its output");
    Ended {
        status: output.status.code().expect("a status"),
        out: output.stdout,
        said: String::from_utf8(output.stderr).expect("text"),
    }
}

fn call(line: &str) -> Ended {
    call_with(b"", &Vec::from_iter(line.split_whitespace()))
}

/// A folder of a test's own.
fn folder(name: &str) -> PathBuf {
    let folder = Path::new(env!("CARGO_TARGET_TMPDIR")).join(name);
    _ = fs::remove_dir_all(&folder);
    fs::create_dir_all(&folder).expect("a folder");
    folder
}

fn is_empty(folder: &Path) -> bool {
    fs::read_dir(folder).expect("a folder").next().is_none()
}

// ---- run

/// The stored books with their listings.
fn examples() -> Vec<(PathBuf, String)> {
    let mut found = Vec::new();
    for entry in fs::read_dir(top().join("examples")).expect("the examples") {
        let path = entry.expect("an example").path();
        if path
            .extension()
            .is_some_and(|extension| extension == "book")
        {
            let listing = fs::read_to_string(path.with_extension("txt")).expect("a listing");
            found.push((path, listing));
        }
    }
    assert!(found.len() > 15);
    found
}

#[test]
fn it_lists_the_stored_books_as_the_program_does() {
    for (path, listing) in examples() {
        let name = path.to_str().expect("a plain name");
        let ended = call_with(b"", &["run", name]);
        assert_eq!(ended.text(), listing, "{name}");
        let refused = listing.starts_with("refused");
        assert_eq!(ended.status, i32::from(refused), "{name}");
        assert_eq!(ended.said.is_empty(), !refused, "{}", ended.said);
    }
}

#[test]
fn a_text_runs_as_its_bytes_do() {
    let by_text = call_with(PAPER.as_bytes(), &["run", "-"]).done();
    assert_eq!(by_text, call_with(&PAPER_BOOK, &["run", "-"]).done());
    assert_eq!(
        by_text,
        fs::read_to_string(top().join("examples/paper.txt")).unwrap()
    );
}

#[test]
fn the_direct_run_and_the_state() {
    let run = |words: &[&str]| call_with(PAPER.as_bytes(), words).done();
    let head = "d 3 n 2 operations 4 errors 1\nm 0 qudit 0 free 2\nm 1 qudit 1 certain 0\n";
    assert_eq!(run(&["run", "--direct", "-"]), head);
    // Stabilizer 1 is that of the crate's first example: X^0 Z^2 on qudit 0, Z on qudit 1, phase 2.
    let state = "stabilizer 0 ω Z0\nstabilizer 1 ω^2 Z0^2 Z1\n";
    assert_eq!(
        run(&["run", "-", "--direct", "--state"]),
        format!("{head}{state}")
    );
    let frame = run(&["run", "-"]);
    assert_eq!(run(&["run", "--state", "-"]), format!("{frame}{state}"));
}

/// Runs the circuit of the specification, with these options.
fn run_paper(options: &str) -> Ended {
    let words = ["run", "-"].into_iter().chain(options.split_whitespace());
    call_with(PAPER.as_bytes(), &Vec::from_iter(words))
}

/// What is seen at each number: the measurements made so far, the next operation with the errors that
/// strike before it, looks and stabilizers.
#[test]
fn a_halted_run_is_listed_where_it_stands() {
    let head = "d 3 n 2 operations 4 errors 1\n";
    let halted = |k: usize, next: &str, errors: usize| {
        format!(
            "halted before operation {k} of 4: {next}; errors there not yet applied: {errors}\n"
        )
    };
    let m = ["m 0 qudit 0 free 2\n", "m 1 qudit 1 certain 0\n"];
    let at = |k: usize| run_paper(&format!("--halt {k} --look 0,1")).done();
    let looks = |of: [&str; 2]| format!("look qudit 0 {}\nlook qudit 1 {}\n", of[0], of[1]);
    let standing = [
        halted(0, "fourier 0", 0) + &looks(["certain 0", "certain 0"]),
        halted(1, "sum 0 1", 0) + &looks(["free", "certain 0"]),
        halted(2, "measure 0", 1) + &looks(["free", "free"]),
        m[0].to_string() + &halted(3, "measure 1", 0) + &looks(["certain 2", "certain 0"]),
        m.concat()
            + "halted after all 4 operations; errors there not yet applied: 0\n"
            + &looks(["certain 2", "certain 0"]),
        m.concat() + "finished\n" + &looks(["certain 2", "certain 0"]),
    ];
    for (k, standing) in standing.iter().enumerate() {
        assert_eq!(at(k), format!("{head}{standing}"));
    }
    assert_eq!(at(usize::MAX), at(5));
    let state = "stabilizer 0 X0^2 X1^2\nstabilizer 1 Z0^2 Z1\n";
    assert_eq!(
        run_paper("--state --halt=2").done(),
        format!("{head}{}{state}", halted(2, "measure 0", 1))
    );
}

/// The errors that strike after all operations are told where they are pending, and seen at the finish.
#[test]
fn errors_after_all_operations_come_at_the_finish() {
    let text = b"qudits 1 dimension 5\nmeasure 0\nerror 0 x\nerror 0 x^2\n";
    let run = |halt: &str| call_with(text, &["run", "-", "--look", "0", "--halt", halt]).done();
    let head = "d 5 n 1 operations 1 errors 2\nm 0 qudit 0 certain 0\n";
    let halted = "halted after all 1 operations; errors there not yet applied: 2\n";
    assert_eq!(run("1"), format!("{head}{halted}look qudit 0 certain 0\n"));
    assert_eq!(
        run("2"),
        format!("{head}finished\nlook qudit 0 certain 3\n")
    );
}

/// A look without a halt is at the end of a direct run. The order and number of looks are the asked
/// ones.
#[test]
fn looks_at_the_end_of_a_run() {
    let direct = run_paper("--direct").done();
    let looks = "look qudit 0 certain 2\nlook qudit 1 certain 0\n";
    let ended = format!("{direct}finished\n");
    assert_eq!(run_paper("--look all").done(), format!("{ended}{looks}"));
    assert_eq!(
        run_paper("--direct --look=0,1").done(),
        format!("{ended}{looks}")
    );
    assert_eq!(run_paper("--halt 99").done(), ended);
    let twice = "look qudit 1 certain 0\nlook qudit 0 certain 2\nlook qudit 1 certain 0\n";
    assert_eq!(run_paper("--look 1,0,1").done(), format!("{ended}{twice}"));
}

/// No qudit is cut to a byte.
#[test]
fn a_look_at_no_qudit_is_refused_by_13() {
    for q in [2, 255, 256, 257, 300, usize::MAX] {
        for options in [
            format!("--look {q}"),
            format!("--halt 2 --look 0,{q} --state"),
        ] {
            let words = format!(
                "standard input: qudit {q}: refused 13 at 0: the tableau has no qudit of this number"
            );
            run_paper(&options).failed(1, &words);
        }
    }
    // A refused circuit comes first.
    let ended = call_with(
        b"qudits 1 dimension 3\nsum 0 0\n",
        &["run", "-", "--look", "7"],
    );
    assert_eq!((ended.status, ended.text()), (1, "refused 5 at 0\n"));
}

#[test]
fn a_refused_text_is_listed_and_its_line_is_said() {
    let ended = call_with(
        b"qudits 2 dimension 3\nfourier 0\n\nsum 1 1\n",
        &["run", "-"],
    );
    assert_eq!((ended.status, ended.text()), (1, "refused 5 at 1\n"));
    let said = "cagvost: standard input: line 4, 'sum 1 1': refused 5 at 1: ";
    assert!(ended.said.starts_with(said), "{}", ended.said);
    let ended = call_with(
        b"qudits 2 dimension 3\nmeasure 0\nreset 0\ncorrect 1 by 1\n",
        &["run", "-"],
    );
    assert_eq!((ended.status, ended.text()), (1, "refused 5 at 2\n"));
    let said = "cagvost: standard input: line 4, 'correct 1 by 1': refused 5 at 2: it names \
                measurement 1, and 1 measurement comes before it ";
    assert!(ended.said.starts_with(said), "{}", ended.said);
    let ended = call_with(b"qudits 2 dimension 3\nfurier 0\n", &["run", "-"]);
    ended.failed(1, "standard input: line 2, column 1: expected fourier");
    call_with(b"qudits 2 dimension 3\n\nfourier \xff", &["run", "-"])
        .failed(1, "line 3, column 9: ");
    call_with(b"\xff", &["run", "-"]).failed(1, "line 1, column 1: ");
    call_with(b"\n\xff", &["run", "-"]).failed(1, "line 2, column 1: ");
    call_with(b"", &["run", "-"]).failed(1, "line 1, column 1: expected 'qudits N dimension D'");
}

// ---- draw, text, book, mirror

#[test]
fn books_and_texts_are_made_of_each_other() {
    for (path, listing) in examples() {
        let name = path.to_str().expect("a plain name");
        let text = call_with(b"", &["text", name]);
        if listing.starts_with("refused") {
            text.failed(1, &listing[..listing.len() - 1]);
            continue;
        }
        let text = text.done();
        assert_eq!(text.parse::<Book>().expect("a text").to_string(), text);
        let bytes = call_with(text.as_bytes(), &["book", "-"]);
        assert_eq!((bytes.status, bytes.said.as_str()), (0, ""));
        assert!(bytes.out == fs::read(&path).expect("a book"), "{name}");
        // Each takes its own form too.
        assert_eq!(call_with(text.as_bytes(), &["text", "-"]).done(), text);
        assert!(call_with(&bytes.out, &["book", "-"]).out == bytes.out);
    }
}

#[test]
fn a_file_is_written_only_if_all_is_good() {
    let folder = folder("written");
    let out = folder.join("out");
    let name = out.to_str().expect("a plain name");
    for command in ["text", "book", "mirror"] {
        call_with(
            b"qudits 2 dimension 3\nsum 0 0\n",
            &[command, "-", "-o", name],
        )
        .failed(1, "line 2, 'sum 0 0': refused 5 at 0");
        call_with(
            b"qudits 2 dimension 3\nsum 0\n",
            &[command, "-", "-o", name],
        )
        .failed(1, "line 2");
    }
    call_with(PAPER.as_bytes(), &["mirror", "-", "-o", name]).failed(1, "refused 12 at 2");
    assert!(is_empty(&folder));
    assert_eq!(
        call_with(PAPER.as_bytes(), &["book", "-", "-o", name]).done(),
        ""
    );
    assert_eq!(fs::read(&out).expect("a book"), PAPER_BOOK);
    assert_eq!(
        call_with(&PAPER_BOOK, &["text", "-", "-o", name]).done(),
        ""
    );
    assert_eq!(fs::read_to_string(&out).expect("a text"), PAPER);
    // Nothing else is left beside it.
    assert_eq!(fs::read_dir(&folder).expect("a folder").count(), 1);
    let nowhere = folder.join("missing/out");
    let nowhere = nowhere.to_str().expect("a plain name");
    call_with(PAPER.as_bytes(), &["book", "-", "-o", nowhere]).failed(2, nowhere);
}

#[test]
fn the_mirror_of_the_stored_circuit() {
    let mirror = call("mirror examples/circuit.book").done();
    assert_eq!(mirror, call("text examples/mirror.book").done());
    // The mirror of the mirror is the circuit without its error.
    let again = call_with(mirror.as_bytes(), &["mirror", "-"]).done();
    let circuit = call("text examples/circuit.book").done();
    let without = circuit.lines().filter(|line| !line.starts_with("error"));
    assert!(again.lines().eq(without));
    assert_ne!(again, circuit);
}

#[test]
fn what_cannot_be_undone_has_no_mirror() {
    for (line, place) in [
        ("measure 0", 1),
        ("reset 0", 1),
        ("measure 0\ncorrect 1 by 0", 1),
        ("fourier 0\nreset 1 choose 2\nmeasure 0", 2),
    ] {
        let text = format!("qudits 2 dimension 3\nsum 0 1\n{line}\n");
        let words = format!(
            "refused 12 at {place}: this operation is the book's first measurement, reset or correction"
        );
        call_with(text.as_bytes(), &["mirror", "-"]).failed(1, &words);
    }
}

#[test]
fn a_mirror_is_written_to_a_file() {
    let out = folder("mirrored").join("out");
    let name = out.to_str().expect("a plain name");
    let words = ["mirror", "examples/circuit.book", "-o", name];
    assert_eq!(call_with(b"", &words).done(), "");
    let written = fs::read_to_string(&out).expect("a text");
    assert_eq!(written, call("mirror examples/circuit.book").done());
    assert_eq!(call("mirror examples/circuit.book -o -").done(), written);
}

/// A text may begin with the first byte of a book, which is Q.
#[test]
fn large_letters_are_text() {
    let large = PAPER.to_ascii_uppercase();
    assert_eq!(call_with(large.as_bytes(), &["text", "-"]).done(), PAPER);
}

#[test]
fn a_wide_drawing_goes_on_below() {
    let text = format!("qudits 1 dimension 3\n{}", "fourier 0\n".repeat(99));
    let drawn = call_with(text.as_bytes(), &["draw", "-"]).done();
    let widths = Vec::from_iter(drawn.lines().map(|line| line.chars().count()));
    assert_eq!(widths, [100, 0, 100, 0, 10], "{drawn}");
}

#[test]
fn a_drawing_has_a_line_per_qudit() {
    let drawing = call("draw examples/ghz.circuit").done();
    let lines: Vec<&str> = drawing.lines().collect();
    assert_eq!(lines.len(), 5, "{drawing}");
    let symbols = ["F", "●", "⊕", "M0"];
    assert!(
        symbols.iter().all(|symbol| drawing.contains(symbol)),
        "{drawing}"
    );
    let narrow = call("draw examples/ghz.circuit --width 20").done();
    assert!(narrow.lines().count() > 5);
    assert!(
        narrow.lines().all(|line| line.chars().count() <= 20),
        "{narrow}"
    );
    assert_eq!(call("draw examples/ghz.circuit --width=0").done(), drawing);
    let drawn = call_with(PAPER.as_bytes(), &["draw", "-"]).done();
    assert!(
        drawn.lines().nth(1).is_some_and(|line| line.contains("!X")),
        "{drawn}"
    );
}

// ---- share and sum

#[test]
fn the_same_seed_gives_the_same_figure_on_any_number_of_threads() {
    let share =
        |more: &str| call(&format!("share {GHZ} --model {MODEL} --shots 20001 {more}")).done();
    let figure = share("--threads 1");
    assert_eq!(figure.lines().count(), 3, "{figure}");
    assert!(
        figure
            .lines()
            .next()
            .is_some_and(|line| line.contains("20001")),
        "{figure}"
    );
    for threads in ["2", "3", "8"] {
        assert_eq!(share(&format!("--threads {threads} --seed 1")), figure);
    }
    assert_ne!(share("--seed 2"), figure);
    assert_ne!(share("--seed 18446744073709551615"), figure);
}

#[test]
fn shards_add_up_to_the_unsharded_figure() {
    let folder = folder("shards");
    let job = format!("share {GHZ} --error 0.01 --shots 10007 --seed 7");
    let figure = call(&job).done();
    for of in [1, 3, 8] {
        let mut names = Vec::new();
        for index in 1..=of {
            let part = call(&format!("{job} --shard {index}/{of}")).done();
            let name = folder.join(format!("{index}.of.{of}"));
            fs::write(&name, part).expect("a part");
            names.push(name.to_str().expect("a plain name").to_string());
        }
        names.reverse();
        let sum = |names: &[String]| {
            let words = ["sum"].into_iter().chain(names.iter().map(String::as_str));
            call_with(b"", &Vec::from_iter(words))
        };
        assert_eq!(sum(&names).done(), figure);
        if of > 1 {
            sum(&names[1..]).failed(1, &format!("of {of} shards these are missing: {of}\n"));
            let twice = format!("{0} and {0}: shard {of}/{of} twice", names[0]);
            sum(&[&names[..], &names[..1]].concat()).failed(1, &twice);
        }
    }
}

#[test]
fn parts_of_different_jobs_are_not_added() {
    let folder = folder("jobs");
    let part = |name: &str, line: &str| {
        let path = folder.join(name);
        fs::write(&path, call(line).done()).expect("a part");
        path.to_str().expect("a plain name").to_string()
    };
    let first = part(
        "first",
        &format!("share {GHZ} --error 0.01 --shots 100 --shard 1/2"),
    );
    for (what, line) in [
        (
            "circuit",
            "share examples/paper.book --error 0.01 --shots 100 --shard 2/2",
        ),
        (
            "model",
            "share examples/ghz.circuit --error 0.02 --shots 100 --shard 2/2",
        ),
        (
            "seed",
            "share examples/ghz.circuit --error 0.01 --shots 100 --shard 2/2 --seed 2",
        ),
        (
            "shots",
            "share examples/ghz.circuit --error 0.01 --shots 101 --shard 2/2",
        ),
        (
            "shard",
            "share examples/ghz.circuit --error 0.01 --shots 100 --shard 2/3",
        ),
    ] {
        // The stored book has an error of its own, which is said.
        let ended = call(line);
        assert_eq!(ended.status, 0, "{}", ended.said);
        let path = folder.join(what);
        fs::write(&path, &ended.out).expect("a part");
        let other = path.to_str().expect("a plain name");
        let ended = call_with(b"", &["sum", &first, other]);
        ended.failed(1, what);
        ended.failed(1, &format!("{first} and {other}: "));
    }
    let other = part(
        "other",
        &format!("share {GHZ} --error 0.01 --shots 100 --shard 2/2"),
    );
    call_with(b"", &["sum", &other, &first]).done();
}

#[test]
fn a_sweep_prints_what_each_rate_gives_and_draws_it() {
    let folder = folder("sweep");
    let svg = folder.join("curve.svg");
    let name = svg.to_str().expect("a plain name");
    let sweep = |rates: &str| format!("share {GHZ} --shots 3000 --sweep {rates}");
    let table = call(&sweep("0.001,0.01,0.1")).done();
    for rate in ["0.001", "0.01", "0.1"] {
        let figure = call(&format!("share {GHZ} --shots 3000 --error {rate}")).done();
        let unharmed = figure.lines().nth(1).expect("a share");
        let numbers: Vec<&str> = unharmed
            .split_whitespace()
            .filter(|word| word.parse::<f64>().is_ok())
            .collect();
        let line = table
            .lines()
            .find(|line| line.split_whitespace().next() == Some(rate))
            .unwrap_or_else(|| panic!("{rate} in {table}"));
        let words: Vec<&str> = line.split_whitespace().collect();
        for number in numbers.iter().filter(|number| **number != "95") {
            assert!(words.contains(number), "{number} in {line}");
        }
    }
    assert!(is_empty(&folder));
    let drawn = call(&format!("{} --svg {name}", sweep("0.001,0.01,0.1"))).done();
    assert_eq!(drawn, table);
    let drawn = fs::read_to_string(&svg).expect("a drawing");
    assert!(drawn.starts_with("<svg ") && drawn.trim_end().ends_with("</svg>"));
    for words in [
        "ghz.circuit: 3000 shots per point, seed 1",
        "error rate per operation and qudit",
    ] {
        assert!(drawn.contains(words), "{words}");
    }
    // With a model the rates are factors.
    let factors = format!("{} --model {MODEL} --svg {name}", sweep("0.5,1"));
    let factors = call(&factors).done();
    let drawn = fs::read_to_string(&svg).expect("a drawing");
    assert!(drawn.contains("factor of the model's error rates"));
    let figure = call(&format!("share {GHZ} --shots 3000 --model {MODEL}")).done();
    let unharmed = figure.lines().nth(1).expect("a share");
    let count = unharmed.split_whitespace().nth(1).expect("a count");
    assert!(
        factors
            .lines()
            .last()
            .is_some_and(|line| line.contains(count)),
        "{factors}"
    );
}

/// Whatever is damaged is said, and nothing is written.
#[test]
fn damaged_input_writes_nothing() {
    let folder = folder("damaged");
    let svg = folder.join("curve.svg");
    let name = svg.to_str().expect("a plain name");
    let share =
        |input: &str, words: &[&str]| call_with(input.as_bytes(), &[&["share"], words].concat());
    let sweep = ["-", "--sweep", "0.1,0.2", "--shots", "10", "--svg", name];
    share("qudits 2 dimension 3\nsum 0 0", &sweep).failed(1, "line 2, 'sum 0 0': refused 5 at 0");
    share("qudits 2 dimension 3\nsum 0", &sweep).failed(1, "line 2, column 6");
    share("fourier 0.1\nsum 0.2\nsum 0.3", &[GHZ, "--model", "-"]).failed(1, "line 3, column 1");
    share("others 1.5", &[GHZ, "--model", "-"]).failed(1, "standard input: line 1, column 8");
    share("others", &[GHZ, "--model", "-"]).failed(1, "line 1, column 7");
    share("", &[GHZ, "--model", "-"]).failed(1, "line 1");
    share("sum 0.1", &[GHZ, "--model", "-"]).failed(1, "fourier");
    share(
        "others 0.6",
        &[GHZ, "--model", "-", "--sweep", "1,2", "--svg", name],
    )
    .failed(2, "--sweep: ");
    let part = call(&format!("share {GHZ} --error 0.1 --shots 10 --shard 1/1")).done();
    let sum = |part: &str| call_with(part.as_bytes(), &["sum", "-"]);
    sum(&part).done();
    sum(&part[..part.len() / 2]).failed(1, "line ");
    sum(&part.replacen("seed 1", "seed 2", 1)).failed(1, "line ");
    sum("").failed(1, "line 1");
    call(&format!("sum {GHZ}")).failed(1, "examples/ghz.circuit: line ");
    assert!(is_empty(&folder));
}

#[test]
fn errors_of_the_circuit_are_left_out_and_this_is_said() {
    let with = call_with(
        PAPER.as_bytes(),
        &["share", "-", "--error", "0.1", "--shots", "500"],
    );
    assert_eq!(with.status, 0);
    assert!(
        with.said.contains("its own errors (1) are left out"),
        "{}",
        with.said
    );
    let without = PAPER.replace("error 1 x\n", "");
    let without = call_with(
        without.as_bytes(),
        &["share", "-", "--error", "0.1", "--shots", "500"],
    );
    assert_eq!(without.done(), with.text());
}

#[test]
fn too_many_errors_are_refused() {
    let text = format!("qudits 2 dimension 3\n{}", "sum 0 1\n".repeat(1025));
    let ended = call_with(
        text.as_bytes(),
        &["share", "-", "--error", "1", "--shots", "5"],
    );
    ended.failed(1, "shot 0 has 2050 errors, and at most 2048");
    let swept = ["share", "-", "--sweep", "0.01,1", "--shots", "5"];
    call_with(text.as_bytes(), &swept).failed(1, "at the rate 1: standard input: shot 0 has 2050");
    let fewer = text.replacen("sum 0 1\n", "", 1);
    call_with(
        fewer.as_bytes(),
        &["share", "-", "--error", "1", "--shots", "5"],
    )
    .done();
}

// ---- What is shown elsewhere

/// Both READMEs show shares, a drawing and a halted run as they are printed, each behind its command.
#[test]
fn the_readme_shows_what_is_printed() {
    for (name, line, gap) in [
        (
            "README.md",
            "./cagvost share examples/ghz.circuit --model examples/chip.model",
            "\n\n",
        ),
        ("README.md", "$ ./cagvost draw examples/ghz.circuit", "\n"),
        (
            "README.md",
            "$ ./cagvost run examples/ghz.circuit --halt 4 --look 0,3,4",
            "\n",
        ),
        (
            "examples/README.md",
            "./cagvost share examples/memory.circuit --model examples/memory.model",
            "\n\n",
        ),
    ] {
        let readme = fs::read_to_string(top().join(name)).expect(name);
        let (_, words) = line.split_once("./cagvost ").expect("a command");
        let printed = call(words).done();
        let shown = printed.lines().map(|line| format!("    {line}\n"));
        let shown = format!("    {line}{gap}{}\n", shown.collect::<String>());
        assert!(readme.contains(&shown), "{name} does not show\n{shown}");
    }
}

/// The share of the memory experiment without its corrections, as examples/README.md has it.
#[test]
fn corrections_keep_what_waits() {
    let circuit = fs::read_to_string(top().join("examples/memory.circuit")).expect("a circuit");
    let share = |text: &str| {
        let words = ["share", "-", "--model", "examples/memory.model"];
        let figure = call_with(text.as_bytes(), &words).done();
        let unharmed = figure.lines().nth(1).expect("a share");
        let share = unharmed.split_whitespace().nth(3).expect("a number");
        share.parse::<f64>().expect("a number")
    };
    let lines = circuit.lines().filter(|line| !line.starts_with("correct"));
    let without = share(&lines.map(|line| format!("{line}\n")).collect::<String>());
    let kept = share(&circuit);
    let readme = fs::read_to_string(top().join("examples/README.md")).expect("README.md");
    for share in [without, kept] {
        assert!(
            readme.contains(&format!(" {:.1} %", 100.0 * share)),
            "{share}"
        );
    }
    // That of a qutrit which waits twice without a code is between the two.
    let bare = 0.95 * 0.95;
    assert!(without < bare && bare + 0.05 < kept, "{without} {kept}");
}

/// The stored curve is what the command of examples/README.md draws.
#[test]
fn the_stored_curve_is_drawn_again() {
    let folder = folder("curve");
    let svg = folder.join("curve.svg");
    let words = "share examples/ghz.circuit --sweep 0.0001:0.1:10 --svg";
    let readme = fs::read_to_string(top().join("examples/README.md")).expect("README.md");
    assert!(readme.contains(&format!("`./cagvost {words} examples/ghz.svg`")));
    call(&format!("{words} {}", svg.display())).done();
    let [drawn, stored] = [svg, top().join("examples/ghz.svg")].map(fs::read);
    assert!(drawn.expect("a drawing") == stored.expect("a drawing"));
}

// ---- Help and faults

#[test]
fn each_command_has_help() {
    let all = call("help").done();
    assert_eq!(all, call("--help").done());
    for name in ["run", "draw", "text", "book", "mirror", "share", "sum"] {
        assert!(all.contains(&format!("\n  {name} ")), "{name}");
        let help = call(&format!("help {name}")).done();
        assert!(
            help.starts_with(&format!("usage: cagvost {name} ")),
            "{help}"
        );
        assert!(help.contains("Exit status: 0"), "{help}");
        assert_eq!(help, call(&format!("{name} --help")).done());
        assert_eq!(help, call(&format!("{name} -h")).done());
        assert!(
            help.lines().all(|line| line.chars().count() <= 100),
            "{help}"
        );
    }
    assert_eq!(
        call("--version").done(),
        concat!("cagvost ", env!("CARGO_PKG_VERSION"), "\n")
    );
}

/// Every option that a command takes is in its help.
#[test]
fn the_help_names_each_option() {
    for (command, options) in [
        ("run", "--direct --state --halt --look"),
        (
            "share",
            "--error --model --shots --seed --threads --shard --sweep --svg",
        ),
    ] {
        let help = call(&format!("{command} --help")).done();
        for option in options.split(' ') {
            assert!(help.contains(&format!("\n  {option} ")), "{option}");
        }
    }
}

#[test]
fn a_wrong_command_line_does_nothing() {
    for (line, words) in [
        ("", "usage: cagvost COMMAND"),
        ("walk", "there is no command 'walk'"),
        ("help walk", "there is no command 'walk'"),
        ("help run extra", "there is no command 'help'"),
        ("--version extra", "there is no command '--version'"),
        ("run", "run: it needs a circuit"),
        ("run examples/paper.book examples/full.book", "nothing else"),
        (
            "run examples/paper.book --states",
            "there is no option --states",
        ),
        ("run examples/paper.book --halt", "--halt needs a value"),
        (
            "run examples/paper.book --halt -1",
            "--halt is '-1', and should be a number of operations",
        ),
        (
            "run examples/paper.book --halt 99999999999999999999",
            "--halt is '99999999999999999999'",
        ),
        (
            "run examples/paper.book --look one",
            "--look is 'one', and should be numbers of qudits, as in '0,3', or 'all'",
        ),
        ("run examples/paper.book --look 0,", "--look is '0,'"),
        ("run examples/paper.book --look 0,-1", "--look is '0,-1'"),
        ("run examples/paper.book --look 0 --look 1", "given twice"),
        ("run examples/missing.book", "examples/missing.book: "),
        ("run examples", "examples: "),
        (
            "draw examples/ghz.circuit --width wide",
            "--width is 'wide'",
        ),
        ("text examples/ghz.circuit -o", "-o needs a value"),
        ("sum", "sum: it needs"),
        ("share - --model -", "cannot both be standard input"),
        (
            "text examples/ghz.circuit -o x.book",
            "x.book is a name for bytes",
        ),
        (
            "mirror examples/circuit.book -o x.book",
            "x.book is a name for bytes",
        ),
        ("text examples/ghz.circuit -o=", "-o needs a value"),
        ("sum examples/missing", "examples/missing: "),
        ("share examples/ghz.circuit", "--error P or --model FILE"),
        ("share --error 0.1", "it needs a circuit"),
        ("share examples/ghz.circuit --error 1.1", "--error is '1.1'"),
        (
            "share examples/ghz.circuit --error -0.1",
            "--error is '-0.1'",
        ),
        ("share examples/ghz.circuit --error nan", "--error is 'nan'"),
        (
            "share examples/ghz.circuit --error 0.1 --model examples/chip.model",
            "exclude",
        ),
        (
            "share examples/ghz.circuit --model examples/missing",
            "examples/missing: ",
        ),
        (
            "share examples/ghz.circuit --error 0.1 --shots 0",
            "--shots is '0'",
        ),
        (
            "share examples/ghz.circuit --error 0.1 --shots 1e3",
            "--shots is '1e3'",
        ),
        (
            "share examples/ghz.circuit --error 0.1 --seed -1",
            "--seed is '-1'",
        ),
        (
            "share examples/ghz.circuit --error 0.1 --threads 0",
            "--threads is '0'",
        ),
        (
            "share examples/ghz.circuit --error 0.1 --shard 0/3",
            "--shard is '0/3'",
        ),
        (
            "share examples/ghz.circuit --error 0.1 --shard 4/3",
            "--shard is '4/3'",
        ),
        (
            "share examples/ghz.circuit --error 0.1 --shard 3",
            "--shard is '3'",
        ),
        (
            "share examples/ghz.circuit --error 0.1 --sweep 0.1,0.2",
            "--error",
        ),
        (
            "share examples/ghz.circuit --sweep 0.1,0.2 --shard 1/2",
            "exclude",
        ),
        (
            "share examples/ghz.circuit --sweep 0.1,x",
            "--sweep is '0.1,x'",
        ),
        (
            "share examples/ghz.circuit --error 0.1 --svg x.svg",
            "no --sweep",
        ),
    ] {
        call(line).failed(2, words);
    }
}

/// What follows `--` is a name, whatever it looks like.
#[test]
fn names_may_look_like_options() {
    call("run -- --help").failed(2, "--help: ");
    call("run -- -h").failed(2, "-h: ");
}

/// A status is given also where nothing can be said.
#[test]
fn a_full_standard_error_is_no_crash() {
    let status = |words: &[&str]| {
        let full = File::options().write(true).open("/dev/full").ok()?;
        let mut command = Command::new(env!("CARGO_BIN_EXE_cagvost"));
        let command = command.args(words).current_dir(top());
        let ended = command.stdout(Stdio::null()).stderr(full).status();
        ended.expect("the command").code()
    };
    if File::options().write(true).open("/dev/full").is_err() {
        return; // there is no such device here
    }
    assert_eq!(status(&["run", "examples/missing.book"]), Some(2));
    assert_eq!(status(&["run", "examples/refused_5.book"]), Some(1));
    let share = [
        "share",
        "examples/paper.book",
        "--error",
        "0.1",
        "--shots",
        "9",
    ];
    assert_eq!(status(&share), Some(0));
}

/// A listing that cannot be written is no success.
#[test]
fn output_that_cannot_be_written_is_said() {
    let Ok(full) = File::options().write(true).open("/dev/full") else {
        return; // there is no such device here
    };
    let child = Command::new(env!("CARGO_BIN_EXE_cagvost"))
        .args(["run", "examples/paper.book"])
        .current_dir(top())
        .stdout(full)
        .stderr(Stdio::piped())
        .spawn();
    let output = child
        .and_then(|child| child.wait_with_output())
        .expect("the command");
    assert_eq!(output.status.code(), Some(2));
    let said = String::from_utf8(output.stderr).expect("text");
    assert!(said.starts_with("cagvost: standard output: "), "{said}");
}
