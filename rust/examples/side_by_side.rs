//! Two pictures side by side as a PNG: `side_by_side LEFT.ppm RIGHT.pgm OUT.png`. The two must be equally high. Each
//! pixel is shown as two by two, so that single ones can be seen.

mod pictures;

use pictures::{png, read_picture, said, write_file, Picture};
use std::process::ExitCode;

/// What stands between the two: grey.
const GAP: [u8; 3 * 8] = [128; 3 * 8];

/// A pixel as red, green and blue of eight bits.
fn shown(picture: &Picture, pixel: &[u16]) -> [u8; 3] {
    let maximum = picture.maximum as u32;
    let eight_bits = |value: u16| ((value as u32 * 255 + maximum / 2) / maximum) as u8;
    [0, 1, 2].map(|channel| eight_bits(pixel[channel % picture.channels]))
}

fn rows(picture: &Picture) -> Vec<Vec<u8>> {
    let pixels: Vec<[[u8; 3]; 2]> = picture.pixels().map(|pixel| [shown(picture, pixel); 2]).collect();
    pixels.chunks_exact(picture.width).flat_map(|row| vec![row.concat().concat(); 2]).collect()
}

fn side_by_side(arguments: &[&str]) -> Result<(), String> {
    let (left, right, out) = match arguments {
        [left, right, out] => (left, right, out),
        _ => return Err("give LEFT.ppm RIGHT.pgm OUT.png".to_string()),
    };
    let pictures = (read_picture(left, 3)?, read_picture(right, 1)?);
    if pictures.0.height != pictures.1.height {
        return Err(said(right, format!("not as high as {left}")));
    }
    let beside = |(left, right): (Vec<u8>, Vec<u8>)| [&left[..], &GAP, &right].concat();
    let rows: Vec<Vec<u8>> = rows(&pictures.0).into_iter().zip(rows(&pictures.1)).map(beside).collect();
    write_file(out, &png::write(rows[0].len() / 3, &rows))
}

fn main() -> ExitCode {
    pictures::run(side_by_side)
}
