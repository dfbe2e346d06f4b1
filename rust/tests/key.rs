//! The examples that draw, key and show a picture, run as programs. Each matte is compared with the straight scan's,
//! pixel by pixel, and `docs/key.png` with what they make, byte for byte.
//!
//! `cargo test` builds the examples; if this test is run alone, `cargo build --examples` must go before it, of the
//! same profile.

#[path = "../../oracle/straight_scan.rs"]
#[allow(dead_code)]
#[rustfmt::skip]
mod straight_scan;

mod lines;
mod numbers;
mod random;

use lines::*;
use numbers::*;
use random::*;
use std::fs;
use std::path::{Path, PathBuf};
use std::process::Command;
use straight_scan::{Bin, Codes, Gesture, Sample};

/// What makes `docs/key.png`: picks on the face, whose colours are the demo's sheet, and a radius.
const PICKS: [(usize, usize); 6] = [(90, 52), (106, 70), (98, 80), (106, 54), (88, 30), (88, 70)];
const RADIUS: &str = "0.08";

/// An empty folder for the files of a test.
fn folder(test: &str) -> PathBuf {
    let folder = Path::new(env!("CARGO_TARGET_TMPDIR")).join("key").join(test);
    _ = fs::remove_dir_all(&folder);
    fs::create_dir_all(&folder).unwrap();
    folder
}

/// Runs an example in a folder. Gives what it says on standard output if it ends well, and on standard error if
/// not.
fn run(folder: &Path, example: &str, arguments: &[&str]) -> Result<String, String> {
    let test = std::env::current_exe().unwrap();
    let program = test.parent().unwrap().parent().unwrap().join("examples").join(example);
    let output = Command::new(&program).args(arguments).current_dir(folder).output();
    let output = output.unwrap_or_else(|error| panic!("{}: {error}; build the examples first", program.display()));
    let text = |bytes: Vec<u8>| String::from_utf8(bytes).unwrap();
    match output.status.code() {
        Some(0) => Ok(text(output.stdout)),
        Some(1) => Err(text(output.stderr)),
        other => panic!("{example} {arguments:?} ended with {other:?}: {}", text(output.stderr)),
    }
}

/// The arguments of `key` for these picks.
fn picking(picture: &str, picks: &[(usize, usize)], radius: &str, matte: &str) -> Vec<String> {
    let pick = |(x, y): &(usize, usize)| ["--pick".to_string(), format!("{x},{y}")];
    let mut all = vec![picture.to_string()];
    all.extend(picks.iter().flat_map(pick));
    all.extend([radius.to_string(), matte.to_string()]);
    all
}

fn key(folder: &Path, arguments: &[impl AsRef<str>]) -> Result<String, String> {
    run(folder, "key", &arguments.iter().map(AsRef::as_ref).collect::<Vec<_>>())
}

/// Colours by row and column: those of a picture, in codes.
type Colours = Vec<Vec<Codes>>;

/// A PPM of colours of these values, with comments in its header.
fn ppm(values: &Colours, maximum: u32) -> Vec<u8> {
    let size = if maximum < 256 { 1 } else { 2 };
    let header = format!("P6 # drawn\n# by a test\n{}\t{}#\n\r{maximum}\n", values[0].len(), values.len());
    let bytes = values.iter().flatten().flatten().flat_map(|&value| value.to_be_bytes()[4 - size..].to_vec());
    header.into_bytes().into_iter().chain(bytes).collect()
}

/// Values as codes: the nearest to value * MOST_CODE / maximum.
fn codes(values: &Colours, maximum: u32) -> Colours {
    let code = |value: u32| (value as f64 * MOST_CODE as f64 / maximum as f64).round() as u32;
    values.iter().map(|row| row.iter().map(|colour| colour.map(code)).collect()).collect()
}

/// The picture that the example draws.
fn drawn(folder: &Path) -> Colours {
    run(folder, "picture", &["portrait.ppm"]).unwrap();
    let file = fs::read(folder.join("portrait.ppm")).unwrap();
    let raster = file.strip_prefix(b"P6\n192 108\n255\n").expect("another header");
    assert_eq!(raster.len(), 192 * 108 * 3);
    let row = |row: &[u8]| row.chunks_exact(3).map(|pixel| [0, 1, 2].map(|h| pixel[h] as u32)).collect();
    codes(&raster.chunks_exact(192 * 3).map(row).collect(), 255)
}

/// The matte of a key by the straight scan, and how many pixels are white.
fn scanned(picture: &Colours, samples: &[Sample], radius: f32) -> (Vec<u8>, usize) {
    let (sample_words, octant_words) = (sample_words(MOST_SAMPLES), octant_words(MOST_OCTANTS));
    let set = Bin { samples: samples.to_vec(), bucket: 16, sample_words, octant_words };
    let white = |codes: &Codes| {
        let answer = set.pick(&Gesture::Ball { centre: codes.map(float), radius }, &vec![0; samples.len()]);
        assert_eq!(answer.number, 0);
        if answer.listed > 0 {
            255
        } else {
            0
        }
    };
    let pixels: Vec<u8> = picture.iter().flatten().map(white).collect();
    let count = pixels.iter().filter(|&&value| value == 255).count();
    let header = format!("P5\n{} {}\n255\n", picture[0].len(), picture.len());
    ([header.as_bytes(), &pixels].concat(), count)
}

/// Runs `key`; what it writes and says must be the straight scan's. Gives how many pixels are white.
fn compare(folder: &Path, arguments: &[impl AsRef<str>], picture: &Colours, samples: &[Sample], radius: &str) -> usize {
    _ = fs::remove_file(folder.join("matte.pgm"));
    let said = key(folder, arguments).unwrap();
    let (matte, white) = scanned(picture, samples, radius.parse().unwrap());
    assert!(fs::read(folder.join("matte.pgm")).unwrap() == matte, "the matte is another than the straight scan's");
    let pixels = picture.len() * picture[0].len();
    assert_eq!(said, format!("{white} of {pixels} pixels keyed, number of samples: {}\n", samples.len()));
    white
}

fn samples_at(picture: &Colours, picks: &[(usize, usize)]) -> Vec<Sample> {
    (0..).zip(picks).map(|(tag, &(x, y))| Sample { tag, codes: picture[y][x] }).collect()
}

fn sheet(samples: &[Sample]) -> Vec<u8> {
    good_sheet(&samples.iter().map(|sample| line_of(sample.tag, sample.codes, "A001")).collect::<Vec<_>>())
}

/// The face is keyed by its own colours, picked or in a sheet, and most of the rest is not.
#[test]
fn the_portrait_keyed() {
    let folder = folder("portrait");
    let picture = drawn(&folder);
    let samples = samples_at(&picture, &PICKS);
    let white = compare(&folder, &picking("portrait.ppm", &PICKS, RADIUS, "matte.pgm"), &picture, &samples, RADIUS);
    assert!((1_500..2_500).contains(&white), "{white} pixels");
    fs::write(folder.join("face.txt"), sheet(&samples)).unwrap();
    let by_sheet = ["portrait.ppm", "face.txt", RADIUS, "matte.pgm"];
    assert_eq!(compare(&folder, &by_sheet, &picture, &samples, RADIUS), white);
}

/// The demo's sheet has the colours of the picked pixels; the order that the demo prints, and the matte by that sheet,
/// are the straight scan's.
#[test]
fn the_sheet_of_the_demo() {
    let folder = folder("demo");
    let picture = drawn(&folder);
    let examples = concat!(env!("CARGO_MANIFEST_DIR"), "/../examples");
    let path = format!("{examples}/face.sheet");
    let sheet = fs::read(&path).unwrap();
    let lines = sheet[HEADER_LENGTH..].chunks(LINE_LENGTH);
    let samples: Vec<Sample> = lines.map(|line| straight_scan::line(line).unwrap().0).collect();
    assert!(samples.iter().map(|sample| sample.codes).eq(PICKS.iter().map(|&(x, y)| picture[y][x])));
    compare(&folder, &["portrait.ppm", &path, RADIUS, "matte.pgm"], &picture, &samples, RADIUS);
    let printed = fs::read_to_string(format!("{examples}/demo.out")).unwrap();
    assert!(printed.contains(&format!(":\n{}Keyed", straight_scan::walklist(&sheet))), "{printed}");
}

#[test]
fn the_picture_in_docs() {
    let folder = folder("docs");
    run(&folder, "picture", &["portrait.ppm"]).unwrap();
    key(&folder, &picking("portrait.ppm", &PICKS, RADIUS, "matte.pgm")).unwrap();
    run(&folder, "side_by_side", &["portrait.ppm", "matte.pgm", "key.png"]).unwrap();
    let kept = fs::read(concat!(env!("CARGO_MANIFEST_DIR"), "/../docs/key.png")).unwrap();
    assert!(fs::read(folder.join("key.png")).unwrap() == kept, "docs/key.png is not what the examples make");
}

/// Pictures of every depth, with pixels picked twice, and radii from none to all; and with a sheet of all their
/// colours.
#[test]
fn pictures_of_every_depth() {
    let folder = folder("depths");
    let one_code = float(1).to_string(); // a radius that holds the very colour alone
    let state = &mut 1;
    let mut whites = vec![];
    for maximum in [1, 3, 200, 255, 256, 1_000, 65_534, 65_535] {
        let values: Colours =
            (0..9).map(|_| (0..14).map(|_| [0; 3].map(|_| below(maximum + 1, state) as u32)).collect()).collect();
        fs::write(folder.join("picture.ppm"), ppm(&values, maximum as u32)).unwrap();
        let picture = codes(&values, maximum as u32);
        let picks = [(0, 0), (13, 8), (5, 5), (0, 0)];
        let samples = samples_at(&picture, &picks);
        for radius in ["0", "0.0001", "0.25", "0.5", "1.999"] {
            let arguments = picking("picture.ppm", &picks, radius, "matte.pgm");
            whites.push(compare(&folder, &arguments, &picture, &samples, radius));
        }
        let own: Vec<Sample> = (0..).zip(picture.concat()).map(|(tag, codes)| Sample { tag, codes }).collect();
        fs::write(folder.join("own.txt"), sheet(&own)).unwrap();
        let white = compare(&folder, &["picture.ppm", "own.txt", &one_code, "matte.pgm"], &picture, &own, &one_code);
        assert_eq!(white, own.len(), "a pixel's colour, of {maximum}, is not the code that it should be");
    }
    for (radius, expected) in [(0, 0), (4, 9 * 14)] {
        assert!(whites.iter().skip(radius).step_by(5).all(|&white| white == expected), "{whites:?}");
    }
    let some = whites.iter().filter(|&&white| (4..9 * 14).contains(&white)).count();
    assert!(some >= 12, "{whites:?}");
}

/// Each of these must be refused in these words, and leave no matte.
fn refuse(folder: &Path, arguments: &[impl AsRef<str>], words: &str) {
    let said = key(folder, arguments).expect_err("not refused");
    assert!(said.starts_with("key: ") && said.contains(words), "{said} and not {words}");
    assert!(!folder.join("matte.pgm").exists(), "{said} and a matte");
}

#[test]
fn pictures_that_are_refused() {
    let folder = folder("pictures");
    let picture = ppm(&vec![vec![[1, 2, 3]; 5]; 4], 255);
    let two_bytes = ppm(&vec![vec![[1, 2, 999]; 5]; 4], 1_000);
    let with = |header: &str| [header.as_bytes(), &[0; 60]].concat();
    let bad: [(&[u8], &str); 16] = [
        (b"", "does not start with P6"),
        (b"P5\n1 1\n255\n\0", "does not start with P6"),
        (b"P3\n1 1\n255\n0 0 0\n", "does not start with P6"),
        (&with("P65 4 255\n"), "a blank is missing in the header"),
        (&with("P6 0 4 255\n"), "the width is not good"),
        (&with("P6 x 4 255\n"), "the width is not good"),
        (&with("P6 5 -4 255\n"), "the height is not good"),
        (&with("P6 5 4 0\n"), "the greatest value is not good"),
        (&with("P6 5 4 65536\n"), "the greatest value is not good"),
        (&with("P6 5 4 255x"), "a blank is missing after the header"),
        (b"P6 5 4 # 255\n", "the greatest value is not good"),
        (&picture[..picture.len() - 1], "59 bytes after the header, and 5 x 4 pixels need 60"),
        (&[&picture[..], b"\n"].concat(), "61 bytes after the header"),
        (&two_bytes[..two_bytes.len() - 1], "119 bytes after the header, and 5 x 4 pixels need 120"),
        (&with("P6 9999999999 9999999999 255\n"), "pixels need more than there can be"),
        (&ppm(&vec![vec![[1, 2, 201]; 5]; 4], 200), "a value of 201, and the greatest is said to be 200"),
    ];
    for (bytes, words) in bad {
        fs::write(folder.join("bad.ppm"), bytes).unwrap();
        refuse(&folder, &["bad.ppm", "--pick", "0,0", "0.1", "matte.pgm"], words);
    }
    refuse(&folder, &["absent.ppm", "--pick", "0,0", "0.1", "matte.pgm"], "absent.ppm");
}

#[test]
fn samples_and_radii_that_are_refused() {
    let folder = folder("samples");
    fs::write(folder.join("picture.ppm"), ppm(&vec![vec![[1, 2, 3]; 5]; 4], 255)).unwrap();
    let line = |tag: Tag| line_of(tag, [1, 2, 3], "A001");
    let many: Vec<Vec<u8>> = (0..=MOST_SAMPLES as Tag).map(line).collect();
    let no_row = format!("refused by 6: line {MOST_SAMPLES}");
    let sheets = [
        (good_sheet(&[line(7), line(8), line_of("x", [1, 2, 3], "A001")]), "refused by 12: line 2"),
        (good_sheet(&[line(7), line(7)]), "refused by 5: line 1"),
        (good_sheet(&many), no_row.as_str()),
        (sheet_of(3, &[line(7)]), "refused by 11: the sheet's header"),
        (vec![], "refused by 11: the sheet's header"),
    ];
    for (sheet, words) in sheets {
        fs::write(folder.join("sheet.txt"), sheet).unwrap();
        refuse(&folder, &["picture.ppm", "sheet.txt", "0.1", "matte.pgm"], words);
    }
    fs::write(folder.join("sheet.txt"), good_sheet(&[line(7)])).unwrap();
    let past = f32::from_bits(BAD_RADIUS).to_string();
    for radius in [past.as_str(), "-0.5", "inf", "NaN"] {
        refuse(&folder, &["picture.ppm", "sheet.txt", radius, "matte.pgm"], &format!("{radius}: refused by 9: "));
    }
    refuse(&folder, &["picture.ppm", "sheet.txt", "wide", "matte.pgm"], "wide: a radius is a number");
    refuse(&folder, &["picture.ppm", "absent.txt", "0.1", "matte.pgm"], "absent.txt: ");
    for (pick, words) in [("5,0", "outside"), ("0,4", "outside"), ("-1,0", "X,Y"), ("1", "X,Y"), ("1,2,3", "X,Y")] {
        let arguments = ["picture.ppm", "--pick", "4,3", "--pick", pick, "0.1", "matte.pgm"];
        refuse(&folder, &arguments, &format!("{pick}: "));
        refuse(&folder, &arguments, words);
    }
    let usage = "give PICTURE SHEET RADIUS MATTE";
    refuse(&folder, &["picture.ppm", "0.1", "matte.pgm"], usage);
    refuse(&folder, &["picture.ppm", "--pick", "0.1", "matte.pgm"], usage);
    refuse(&folder, &["picture.ppm", "--pick", "1,1", "2,2", "0.1", "matte.pgm"], usage);
    refuse(&folder, &[""; 0], usage);
}

/// A matte that is not as high as the picture can't stand beside it.
#[test]
fn side_by_side_that_is_refused() {
    let folder = folder("beside");
    fs::write(folder.join("picture.ppm"), ppm(&vec![vec![[1, 2, 3]; 5]; 4], 255)).unwrap();
    fs::write(folder.join("matte.pgm"), b"P5 1 1 255\n\0").unwrap();
    let arguments = ["picture.ppm", "matte.pgm", "out.png"];
    assert!(run(&folder, "side_by_side", &arguments).unwrap_err().contains("not as high as picture.ppm"));
    assert!(!folder.join("out.png").exists());
}
