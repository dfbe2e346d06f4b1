//! PPM (P6) and PGM (P5): a header in text, then the values in binary.

use super::Picture;

/// `P6` where a pixel has three values, `P5` where it has one.
fn kind(channels: usize) -> &'static str {
    if channels == 3 {
        "P6"
    } else {
        "P5"
    }
}

/// The values of a file that has just one picture, of so many channels, or what is wrong with it.
pub fn read(bytes: &[u8], channels: usize) -> Result<Picture, String> {
    let kind = kind(channels);
    let after_kind = bytes.strip_prefix(kind.as_bytes()).ok_or_else(|| format!("does not start with {kind}"))?;
    let mut text = Text(after_kind);
    let width = text.number("width", usize::MAX)?;
    let height = text.number("height", usize::MAX)?;
    let maximum = text.number("greatest value", 65_535)? as u16;
    let raster = text.raster()?;
    let size = if maximum > 255 { 2 } else { 1 };
    let length = [height, channels, size].into_iter().try_fold(width, usize::checked_mul);
    if length != Some(raster.len()) {
        let needed = length.map_or("more than there can be".to_string(), |length| length.to_string());
        return Err(format!("{} bytes after the header, and {width} x {height} pixels need {needed}", raster.len()));
    }
    let values: Vec<u16> = raster.chunks_exact(size).map(big_endian).collect();
    match values.iter().find(|&&value| value > maximum) {
        Some(value) => Err(format!("a value of {value}, and the greatest is said to be {maximum}")),
        None => Ok(Picture { width, height, channels, maximum, values }),
    }
}

fn big_endian(bytes: &[u8]) -> u16 {
    bytes.iter().fold(0, |value, &byte| value << 8 | byte as u16)
}

/// What is left of a header.
struct Text<'a>(&'a [u8]);

impl Text<'_> {
    /// Goes past blanks and comments, which are from `#` to the end of the line; there must be one at least.
    fn gap(&mut self) -> Result<(), String> {
        let before = self.0.len();
        while let Some(&byte) = self.0.first() {
            let length = match byte {
                b'#' => self.0.iter().position(|&byte| byte == b'\n').unwrap_or(self.0.len()),
                _ if byte.is_ascii_whitespace() => 1,
                _ => break,
            };
            self.0 = &self.0[length..];
        }
        if self.0.len() == before {
            Err("a blank is missing in the header".to_string())
        } else {
            Ok(())
        }
    }

    /// A number after a gap, from 1 to the greatest.
    fn number(&mut self, what: &str, greatest: usize) -> Result<usize, String> {
        self.gap()?;
        let length = self.0.iter().take_while(|byte| byte.is_ascii_digit()).count();
        let (digits, rest) = self.0.split_at(length);
        self.0 = rest;
        let number = std::str::from_utf8(digits).ok().and_then(|digits| digits.parse().ok());
        number.filter(|number| (1..=greatest).contains(number)).ok_or_else(|| format!("the {what} is not good"))
    }

    /// What follows the one blank after the header.
    fn raster(&self) -> Result<&[u8], String> {
        match self.0.split_first() {
            Some((blank, rest)) if blank.is_ascii_whitespace() => Ok(rest),
            _ => Err("a blank is missing after the header".to_string()),
        }
    }
}

/// The file of a picture.
pub fn write(picture: &Picture) -> Vec<u8> {
    let Picture { width, height, channels, maximum, values } = picture;
    let mut file = format!("{}\n{width} {height}\n{maximum}\n", kind(*channels)).into_bytes();
    for value in values {
        let bytes = value.to_be_bytes();
        file.extend(if *maximum > 255 { &bytes[..] } else { &bytes[1..] });
    }
    file
}
