//! A key: where a picture has the colours of a set of samples.
//!
//!     key PICTURE SHEET RADIUS MATTE
//!     key PICTURE --pick X,Y [--pick X,Y ..] RADIUS MATTE
//!
//! PICTURE is a PPM (P6). The samples are a sheet's, or the colours of picked pixels, counted from 0 at the top left.
//! MATTE is written, a PGM (P5): a pixel is white if a ball of this radius around its colour lists any sample, and
//! black if it lists none.
//!
//! A value of the picture becomes the code value * MOST_CODE / greatest, rounded, so that black is code 0 and white
//! MOST_CODE: of eight bits that is value * 257, of sixteen the value itself.

mod pictures;

use hubeltxa::{floats, numbers::MOST_CODE, Refusal, RefusedLoad, SampleSet};
use pictures::{pnm, read_file, read_picture, said, write_file, Picture};
use std::process::ExitCode;

const USAGE: &str = "give PICTURE SHEET RADIUS MATTE, or PICTURE --pick X,Y [--pick X,Y ..] RADIUS MATTE";

/// The bucket size: any would give the same matte.
const BUCKET: u32 = 16;

/// Says what the library refused, and by which number.
fn refused(of: &str) -> impl Fn(Refusal) -> String + '_ {
    move |refusal| said(of, format!("refused by {}: {refusal}", refusal.number()))
}

fn codes(picture: &Picture, pixel: &[u16]) -> [u32; 3] {
    let maximum = picture.maximum as u32;
    [0, 1, 2].map(|channel| (pixel[channel] as u32 * MOST_CODE + maximum / 2) / maximum)
}

/// The samples of a sheet, as many as a set can hold.
fn from_sheet(path: &str) -> Result<SampleSet, String> {
    let sheet = read_file(path)?;
    let lines = sheet.len() / hubeltxa::LINE_LENGTH;
    let mut set = SampleSet::for_samples(lines, BUCKET).map_err(refused(path))?;
    let said = |load: RefusedLoad| said(path, format!("refused by {}: {load}", load.refusal.number()));
    set.load(&sheet).map_err(said)?;
    Ok(set)
}

/// The colour of a pixel, `X,Y`.
fn picked(picture: &Picture, pick: &str) -> Result<[u32; 3], String> {
    let place = pick.split_once(',').and_then(|(x, y)| Some((x.parse::<usize>().ok()?, y.parse::<usize>().ok()?)));
    let (x, y) = place.ok_or_else(|| said(pick, "a pick is X,Y"))?;
    if x >= picture.width || y >= picture.height {
        return Err(said(pick, format!("outside the picture of {} x {}", picture.width, picture.height)));
    }
    let pixel = picture.pixels().nth(y * picture.width + x).unwrap();
    Ok(codes(picture, pixel))
}

/// Samples of picked pixels: their tags are 0, 1, and so on.
fn from_picks(picture: &Picture, picks: &[&str]) -> Result<SampleSet, String> {
    let mut set = SampleSet::for_samples(picks.len(), BUCKET).map_err(refused("picks"))?;
    for (tag, pick) in picks.iter().enumerate() {
        set.add(tag as u32, picked(picture, pick)?).map_err(refused(pick))?;
    }
    Ok(set)
}

/// White if the ball around a pixel's colour lists any sample.
fn matte(picture: &Picture, set: &SampleSet, radius: f32) -> Result<Picture, Refusal> {
    let mut listing = vec![];
    let mut white = |pixel| {
        let listed = set.ball(floats(codes(picture, pixel))?, radius, &mut listing)?;
        Ok(if listed.tags.is_empty() { 0 } else { 255 })
    };
    let values = picture.pixels().map(&mut white).collect::<Result<_, _>>()?;
    Ok(Picture { channels: 1, maximum: 255, values, ..*picture })
}

fn key(arguments: &[&str]) -> Result<(), String> {
    let (path, samples, radius_text, out) = match arguments {
        [path, samples @ .., radius_text, out] => (path, samples, radius_text, out),
        _ => return Err(USAGE.to_string()),
    };
    let picture = read_picture(path, 3)?;
    let set = match samples {
        [] | ["--pick"] => return Err(USAGE.to_string()),
        [sheet] => from_sheet(sheet)?,
        _ => {
            let pairs = samples.chunks(2).map(|pair| if let ["--pick", pick] = pair { Ok(*pick) } else { Err(USAGE) });
            from_picks(&picture, &pairs.collect::<Result<Vec<_>, _>>()?)?
        }
    };
    let radius = radius_text.parse().map_err(|_| said(radius_text, "a radius is a number"))?;
    let matte = matte(&picture, &set, radius).map_err(refused(radius_text))?;
    write_file(out, &pnm::write(&matte))?;
    let white = matte.values.iter().filter(|&&value| value > 0).count();
    println!("{white} of {} pixels keyed, number of samples: {}", matte.values.len(), set.len());
    Ok(())
}

fn main() -> ExitCode {
    pictures::run(key)
}
