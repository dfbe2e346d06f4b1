//! The program walklist, as it is built, compared with the straight scan: what it prints for what stands on its
//! standard input, and that it ends with status 0.
//!
//! It is the file that the environment variable `WALKLIST` names, or else `DEFAULT`. The test prints how many runs
//! gave each number, which `--show-output` shows. The ignored one goes through more sheets: `make test-long`, or
//! `cargo test --release --test walklist -- --ignored`.

#[path = "../../oracle/straight_scan.rs"]
#[allow(dead_code)]
#[rustfmt::skip]
mod straight_scan;

mod calls;
mod compared;
mod lent;
mod lines;
mod numbers;
mod random;
mod sets;

use calls::*;
use lines::edits::{edit, edited};
use lines::*;
use numbers::walklist::*;
use numbers::*;
use random::*;
use sets::*;
use std::fs::File;
use std::io::{ErrorKind, Write};
use std::path::PathBuf;
use std::process::{Child, ChildStdin, Command, Output, Stdio};
use std::time::{Duration, Instant};
use straight_scan::{Bin, Call, Codes, Sample};

/// Where the program stands, from the folder of this crate.
const DEFAULT: &str = "../target/bin/walklist";

/// No run should take nearly as long.
const LONGEST: Duration = Duration::from_secs(20);

fn program() -> PathBuf {
    let default = || PathBuf::from(env!("CARGO_MANIFEST_DIR")).join(DEFAULT);
    let path = std::env::var_os("WALKLIST").map_or_else(default, PathBuf::from);
    assert!(path.is_file(), "{} is missing: build walklist first, or say in WALKLIST where it is", path.display());
    path
}

/// How input comes to the program.
#[derive(Clone, Copy, Debug)]
enum Way {
    /// Through a pipe, all at once.
    Pipe,
    /// Through a pipe, so many bytes at a time, with pauses.
    Pieces(usize),
    /// As a file.
    File,
}

/// A file with this in it.
fn kept(name: &str, input: &[u8]) -> PathBuf {
    let path = PathBuf::from(env!("CARGO_TARGET_TMPDIR")).join(name);
    std::fs::write(&path, input).unwrap();
    path
}

/// Writes the input in pieces. That the program has ended and reads no more is no fault.
fn feed(mut pipe: ChildStdin, input: &[u8], way: Way) {
    let (size, pause) = match way {
        Way::Pieces(size) => (size, Duration::from_micros(50)),
        _ => (input.len().max(1), Duration::ZERO),
    };
    for piece in input.chunks(size) {
        match pipe.write_all(piece).and_then(|()| pipe.flush()) {
            Err(error) if error.kind() == ErrorKind::BrokenPipe => return,
            result => result.unwrap(),
        }
        std::thread::sleep(pause);
    }
}

/// Waits until the program has ended, and ends it where it takes too long. What it prints fits in a pipe.
fn wait(program: &mut Child) {
    let start = Instant::now();
    while program.try_wait().unwrap().is_none() {
        if start.elapsed() > LONGEST {
            program.kill().unwrap();
        }
        std::thread::sleep(Duration::from_micros(50));
    }
}

/// Runs the program on this input. Another thread writes, so that neither waits for the other.
fn run(program: &PathBuf, input: &[u8], way: Way) -> Output {
    let from = match way {
        Way::File => File::open(kept("walklist-input", input)).unwrap().into(),
        _ => Stdio::piped(),
    };
    let mut child = Command::new(program).stdin(from).stdout(Stdio::piped()).stderr(Stdio::piped()).spawn().unwrap();
    let pipe = child.stdin.take();
    std::thread::scope(|scope| {
        scope.spawn(|| pipe.map(|pipe| feed(pipe, input, way)));
        wait(&mut child);
    });
    child.wait_with_output().unwrap()
}

/// Runs that were compared, by the number of the refusal, 0 where there was none.
struct Compared {
    program: PathBuf,
    counts: [usize; 14],
}

impl Compared {
    fn new() -> Self {
        Compared { program: program(), counts: [0; 14] }
    }

    /// The one comparison: every input goes through it. Gives the number.
    fn by(&mut self, way: Way, input: &[u8]) -> usize {
        let expected = straight_scan::walklist(input);
        let given = run(&self.program, input, way);
        let message = || {
            let text = input[..input.len().min(400)].escape_ascii();
            let path = kept("walklist-differs", input);
            format!("{} bytes by {way:?}, kept as {}: \"{text}\"", input.len(), path.display())
        };
        assert!(given.status.success(), "{}: {}", given.status, message());
        let text = given.stdout.escape_ascii();
        assert!(given.stdout == expected.as_bytes(), "it printed \"{text}\", not {expected:?}: {}", message());
        assert!(given.stderr.is_empty(), "it printed \"{}\" as an error: {}", given.stderr.escape_ascii(), message());
        let number = expected.strip_prefix("REFUSED").map_or(0, |number| number.trim().parse().unwrap());
        self.counts[number] += 1;
        number
    }

    fn input(&mut self, input: &[u8]) -> usize {
        self.by(Way::Pipe, input)
    }

    /// An input that must give this number.
    fn expect(&mut self, number: usize, input: &[u8]) {
        assert_eq!(self.input(input), number, "{} bytes", input.len());
    }

    /// Prints how many runs gave each number, all of which must have been seen.
    fn print_all_seen(&self, what: &str) {
        println!("{what}: {} runs", self.counts.iter().sum::<usize>());
        for (number, count) in self.counts.iter().enumerate().filter(|(_, &count)| count > 0) {
            println!("  {number:>2} {count:>9}");
        }
        for number in [0, 5, 6, 7, 11, 12] {
            assert!(self.counts[number] > 0, "{what}: {number} was not seen");
        }
    }
}

/// The example of document 01.
fn example() -> Vec<u8> {
    let samples = [(7, 0), (8, MOST_CODE), (9, 0)].map(|(tag, code)| Sample { tag, codes: [code; 3] });
    sheet(&samples)
}

/// So many colours, of which four at a time are two that part at the last depth, each twice: with bucket size 2 each
/// four have octants down to the smallest.
fn deep(n: usize, seed: u64) -> Vec<Codes> {
    close_pairs(n, seed).into_iter().flat_map(|codes| [codes; 2]).take(n).collect()
}

/// A good sheet of so many scattered colours.
fn plain_sheet(lines: usize, seed: u64) -> Vec<u8> {
    sheet(&tagged(scattered(lines, seed)))
}

/// Sheets of each length up to the most lines that are read, and longer ones.
fn lengths(compared: &mut Compared) {
    compared.expect(11, b"");
    for lines in (0..20).chain([64, 100, ROWS - 1, ROWS]) {
        compared.expect(0, &plain_sheet(lines, lines as u64));
    }
    compared.expect(0, &sheet(&tagged([[300, MOST_CODE, 0]; ROWS])));
    for lines in ROWS + 1..=MOST_LINES {
        compared.expect(6, &plain_sheet(lines, 1));
    }
    for lines in [MOST_LINES + 1, 600, 2 * MOST_LINES + 1, 2 * MOST_LINES + 2, MOST_SAMPLES, 20_000] {
        compared.expect(11, &plain_sheet(lines, 2));
    }
}

/// Good sheets with bytes after them, up to what is read, past it by one, and past what a pipe holds.
fn padded(compared: &mut Compared) {
    let of_lines = [0, 3, ROWS, MOST_LINES].map(|lines| plain_sheet(lines, 3));
    for sheet in of_lines {
        for length in [MOST_READ - 1, MOST_READ, MOST_READ + 1, 65_536, 65_537, 1_000_000] {
            for byte in [b' ', b'\n', 0] {
                let mut longer = sheet.clone();
                longer.resize(length, byte);
                compared.expect(11, &longer);
            }
        }
        for more in 1..=LINE_LENGTH {
            let follows = line_of(7, [1, 2, 3], "A001");
            compared.expect(11, &[&sheet, &follows[..more]].concat());
        }
    }
    // Two sheets, one after the other.
    compared.expect(11, &example().repeat(2));
}

/// Inputs of the greatest length, and one byte less and more, that are no sheets but start as one.
fn cut_off(compared: &mut Compared) {
    let long = plain_sheet(MOST_LINES + 1, 4);
    let (header, whole) = (HEADER_LENGTH, sheet_length(MOST_LINES));
    for length in [header - 1, header, header + 1, whole - 1, whole, MOST_READ - 1, MOST_READ] {
        compared.expect(11, &long[..length]);
    }
    // As long as a sheet of the most lines, which it says it is: the lines past the rows are refused.
    let mut recounted = long;
    recounted[..header].copy_from_slice(&sheet_of(MOST_LINES, &[]));
    compared.expect(6, &recounted[..whole]);
    compared.expect(11, &recounted[..MOST_READ]);
    compared.expect(11, &recounted);
}

/// The set before the load.
fn empty() -> Bin {
    straight_scan::start(sample_words(ROWS), octant_words(OCTANTS), 2).unwrap()
}

/// Octant rows that run out before the sample rows, at the first line that finds too few.
fn octants_run_out(compared: &mut Compared, seed: u64) {
    let samples = tagged(deep(MOST_LINES, seed));
    let taken = empty().call(&Call::Load(sheet(&samples))).taken as usize;
    compared.expect(0, &sheet(&samples[..taken]));
    compared.expect(7, &sheet(&samples[..=taken]));
    compared.expect(7, &sheet(&samples[..ROWS]));
    // A line after it that is not good is not asked; where it is not good itself, that comes first.
    let mut lines: Vec<_> = samples.iter().map(|&sample| line(sample)).collect();
    lines[taken + 1] = line_of("", [0; 3], "A001");
    compared.expect(7, &good_sheet(&lines));
    lines[taken] = line_of("", [0; 3], "A001");
    compared.expect(12, &good_sheet(&lines));
}

/// Samples that have just as many octants as there are rows, and then one that needs a row more.
fn octants_just_so(compared: &mut Compared, seed: u64) {
    let colours = deep(ROWS, seed).into_iter().chain(scattered(1_000, seed));
    let (mut fit, mut set) = (vec![], exact(&[], 2));
    for codes in colours {
        set.samples = tagged(fit.iter().copied().chain([codes]));
        match set.octants() {
            octants if octants <= OCTANTS => fit.push(codes),
            octants if octants == OCTANTS + 1 && exact(&tagged(fit.clone()), 2).octants() == OCTANTS => {
                compared.expect(0, &sheet(&tagged(fit)));
                return compared.expect(7, &sheet(&set.samples));
            }
            _ => {}
        }
    }
    panic!("no such samples by seed {seed}");
}

/// Each of the lines not good, and with the tag of a line before it; on full rows both come before 6.
fn refused_at(compared: &mut Compared, count: usize, step: usize, seed: u64) {
    let samples = tagged(scattered(count, seed));
    let good: Vec<_> = samples.iter().map(|&sample| line(sample)).collect();
    let mut state = seed;
    for at in (0..count).step_by(step) {
        let mut lines = good.clone();
        let bad = bad_lines(samples[at]);
        lines[at] = bad[below(bad.len(), &mut state)].clone();
        compared.expect(if at > ROWS { 6 } else { 12 }, &good_sheet(&lines));
        if at > 0 {
            let tag = samples[below(at.min(ROWS), &mut state)].tag;
            lines[at] = line(Sample { tag, codes: samples[at].codes });
            compared.expect(if at > ROWS { 6 } else { 5 }, &good_sheet(&lines));
        }
    }
}

/// Every byte of a sheet changed to each of these.
fn bytes_changed(compared: &mut Compared, sheet: &[u8], bytes: &[u8]) {
    for at in 0..sheet.len() {
        let changed = bytes.iter().copied().chain([sheet[at] ^ 1]).filter(|&byte| byte != sheet[at]);
        for byte in changed {
            let mut altered = sheet.to_vec();
            altered[at] = byte;
            compared.input(&altered);
        }
    }
}

/// Sheets of a few colours, in which orders differ, then with a few edits, and cut.
fn random_sheets(compared: &mut Compared, runs: usize, mut state: u64) {
    let state = &mut state;
    for _ in 0..runs {
        let colours = pool(60, state);
        let most_lines = any_of(&[3, 10, 40], state);
        let mut sheet = any_sheet(&empty(), &colours, most_lines, state);
        match below(4, state) {
            0 => sheet = edited(sheet, state),
            1 => edit(&mut sheet, state),
            2 => sheet.truncate(below(sheet.len() + 1, state)),
            _ => {}
        }
        compared.input(&sheet);
    }
}

/// Input that comes in pieces, and as a file.
fn ways(compared: &mut Compared) {
    let long = plain_sheet(MOST_LINES + 100, 5);
    for sheet in [example(), plain_sheet(10, 6), vec![], example()[..100].to_vec()] {
        let sizes = [1, 7, LINE_LENGTH - 1, LINE_LENGTH, sheet_length(1)];
        sizes.into_iter().for_each(|size| _ = compared.by(Way::Pieces(size), &sheet));
        compared.by(Way::File, &sheet);
    }
    let cut = [ROWS, MOST_LINES].map(|lines| plain_sheet(lines, 6));
    for sheet in cut.iter().chain([&long, &long[..MOST_READ].to_vec(), &long[..MOST_READ + 1].to_vec()]) {
        let sizes = [LINE_LENGTH - 1, 512, 4_095, 4_096, MOST_READ - 1];
        sizes.into_iter().for_each(|size| _ = compared.by(Way::Pieces(size), sheet));
        compared.by(Way::File, sheet);
    }
}

#[test]
fn as_the_straight_scan() {
    let mut compared = Compared::new();
    let printed = [7, 9, 8].map(|tag| format!("{tag:>TAG_COLUMNS$}\n")).concat();
    assert_eq!(straight_scan::walklist(&example()), printed);
    compared.expect(0, &example());
    lengths(&mut compared);
    padded(&mut compared);
    cut_off(&mut compared);
    (0..2).for_each(|seed| octants_run_out(&mut compared, seed));
    octants_just_so(&mut compared, 1);
    refused_at(&mut compared, 30, 1, 1);
    refused_at(&mut compared, ROWS, 37, 2);
    (ROWS..ROWS + 2).for_each(|at| refused_at(&mut compared, at + 1, at, 3));
    bytes_changed(&mut compared, &example(), b" 0\n\0\xFF");
    random_sheets(&mut compared, 1_500, 1);
    ways(&mut compared);
    compared.print_all_seen("walklist");
}

#[test]
#[ignore = "long: more sheets"]
fn as_the_straight_scan_long() {
    let mut compared = Compared::new();
    (10..40).for_each(|seed| octants_run_out(&mut compared, seed));
    (10..40).for_each(|seed| octants_just_so(&mut compared, seed));
    refused_at(&mut compared, MOST_LINES, 1, 4);
    bytes_changed(&mut compared, &example(), &(0..=255).collect::<Vec<u8>>());
    random_sheets(&mut compared, 20_000, 2);
    compared.print_all_seen("walklist, long");
}
