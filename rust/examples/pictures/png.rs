//! PNG written: eight bits for each of red, green and blue. A row is filtered in the way, of three, that leaves the
//! smallest numbers. What is left is deflated in one block, of literals and of runs of one byte, with Huffman codes of
//! its own: a small part of what deflate can do, which is enough for pictures with grain and for mattes.

/// The file of a picture of so many pixels in a row, from rows of red, green and blue.
pub fn write(width: usize, rows: &[Vec<u8>]) -> Vec<u8> {
    let sizes = [width as u32, rows.len() as u32].map(u32::to_be_bytes).concat();
    let mut file = b"\x89PNG\r\n\x1A\n".to_vec();
    chunk(&mut file, b"IHDR", &[&sizes[..], &[8, 2, 0, 0, 0]].concat());
    chunk(&mut file, b"IDAT", &zlib(&filtered(rows)));
    chunk(&mut file, b"IEND", &[]);
    file
}

/// A length, a name, the bytes, and a check of name and bytes.
fn chunk(file: &mut Vec<u8>, name: &[u8; 4], bytes: &[u8]) {
    let named = [name, bytes].concat();
    file.extend((bytes.len() as u32).to_be_bytes());
    file.extend(&named);
    file.extend(crc32(&named).to_be_bytes());
}

fn crc32(bytes: &[u8]) -> u32 {
    let shifted = |crc: u32| if crc & 1 == 1 { crc >> 1 ^ 0xEDB8_8320 } else { crc >> 1 };
    !bytes.iter().fold(!0, |crc, &byte| (0..8).fold(crc ^ byte as u32, |crc, _| shifted(crc)))
}

fn adler32(bytes: &[u8]) -> u32 {
    let (a, b) = bytes.iter().fold((1, 0), |(a, b), &byte| {
        let a = (a + byte as u32) % 65_521;
        (a, (b + a) % 65_521)
    });
    b << 16 | a
}

/// Each row as its filter's number and the differences from what the filter expects.
fn filtered(rows: &[Vec<u8>]) -> Vec<u8> {
    let mut above = vec![0; rows.first().map_or(0, Vec::len)];
    let mut all = vec![];
    for row in rows {
        let by_each = [1, 2, 4].map(|filter| differences(filter, row, &above));
        let size = |line: &Vec<u8>| line[1..].iter().map(|&byte| (byte as i8).unsigned_abs() as usize).sum::<usize>();
        all.extend(by_each.into_iter().min_by_key(size).unwrap());
        above.clone_from(row);
    }
    all
}

/// Filter 1 expects the byte on the left, 2 the one above, and 4 the nearest to left + above - corner of the three.
fn differences(filter: u8, row: &[u8], above: &[u8]) -> Vec<u8> {
    let expected = |i: usize| {
        let before = |bytes: &[u8]| i.checked_sub(3).map_or(0, |i| bytes[i] as i32);
        let (left, up, corner) = (before(row), above[i] as i32, before(above));
        match filter {
            1 => left,
            2 => up,
            _ => [left, up, corner].into_iter().min_by_key(|value| (left + up - corner - value).abs()).unwrap(),
        }
    };
    let difference = |i: usize| row[i].wrapping_sub(expected(i) as u8);
    std::iter::once(filter).chain((0..row.len()).map(difference)).collect()
}

/// A zlib stream: two bytes that say deflate, the block, and a check.
fn zlib(bytes: &[u8]) -> Vec<u8> {
    let mut stream = vec![0x78, 0x01];
    stream.extend(deflated(bytes));
    stream.extend(adler32(bytes).to_be_bytes());
    stream
}

/// A literal byte, the end, or a run: the symbol of its length, and how many bits more with which value.
type Symbol = (usize, u32, u32);

const END: usize = 256;

/// Symbols of the literal and length alphabet.
const SYMBOLS: usize = 286;

/// The longest code that deflate allows.
const LONGEST: u32 = 15;

/// The symbol of a run of 3 to 258 bytes: 257 to 264 for 3 to 10, then four for each power of two, and 285 for 258.
fn run_of(length: usize) -> Symbol {
    if length == 258 {
        return (285, 0, 0);
    }
    let past = length - 3;
    if past < 8 {
        return (257 + past, 0, 0);
    }
    let extra = usize::BITS - past.leading_zeros() - 3;
    (257 + 4 * extra as usize + (past >> extra), extra, (past & ((1 << extra) - 1)) as u32)
}

/// Bytes as literals and as runs, which repeat the literal before them.
fn symbols(bytes: &[u8]) -> Vec<Symbol> {
    let mut all = vec![];
    let mut left = bytes;
    while let Some(&byte) = left.first() {
        let mut run = left.iter().take_while(|&&next| next == byte).count();
        left = &left[run..];
        all.push((byte as usize, 0, 0));
        run -= 1;
        while run >= 3 {
            let length = run.min(258);
            all.push(run_of(length));
            run -= length;
        }
        all.extend(std::iter::repeat((byte as usize, 0, 0)).take(run));
    }
    all.push((END, 0, 0));
    all
}

/// The bytes in one block. Each length of a code is written in four bits: as a code of its own, in which the sixteen
/// lengths have four bits each. All runs are at distance 1, whose code is one bit, 0.
fn deflated(bytes: &[u8]) -> Vec<u8> {
    let symbols = symbols(bytes);
    let lengths = code_lengths(&symbols);
    let codes = codes(&lengths);
    let mut bits = Bits::default();
    bits.number(0b101, 3); // the last block, with its own codes
    bits.number(SYMBOLS as u32 - 257, 5);
    bits.number(0, 5); // one distance
    bits.number(15, 4); // all nineteen lengths of codes: 16, 17, 18, then the others in deflate's sequence
    (0..19).for_each(|k| bits.number(if k < 3 { 0 } else { 4 }, 3));
    lengths.iter().chain(&[1]).for_each(|&length| bits.code(length, 4));
    for (symbol, extra, value) in symbols {
        bits.code(codes[symbol], lengths[symbol]);
        if symbol > END {
            bits.number(value, extra);
            bits.code(0, 1);
        }
    }
    bits.bytes
}

/// How long Huffman's code of each symbol is. Counts are halved where one would be too long.
fn code_lengths(symbols: &[Symbol]) -> Vec<u32> {
    let mut counts = [0_usize; SYMBOLS];
    symbols.iter().for_each(|&(symbol, ..)| counts[symbol] += 1);
    loop {
        let lengths = huffman(&counts);
        if lengths.iter().all(|&length| length <= LONGEST) {
            return lengths;
        }
        counts = counts.map(|count| count - count / 2);
    }
}

/// The two rarest parts become one, until there is one: each of its symbols is a bit deeper each time.
fn huffman(counts: &[usize]) -> Vec<u32> {
    let mut lengths = vec![0; counts.len()];
    let used = (0..counts.len()).filter(|&symbol| counts[symbol] > 0);
    let mut parts: Vec<(usize, Vec<usize>)> = used.map(|symbol| (counts[symbol], vec![symbol])).collect();
    while parts.len() > 1 {
        parts.sort_by(|one, other| other.cmp(one));
        let (rarest, next) = (parts.pop().unwrap(), parts.pop().unwrap());
        let together = [rarest.1, next.1].concat();
        together.iter().for_each(|&symbol| lengths[symbol] += 1);
        parts.push((rarest.0 + next.0, together));
    }
    lengths
}

/// The codes of these lengths, as deflate gives them: by length, then by symbol.
fn codes(lengths: &[u32]) -> Vec<u32> {
    let mut codes = vec![0; lengths.len()];
    let mut next = 0;
    for length in 1..=LONGEST {
        next <<= 1;
        for symbol in (0..lengths.len()).filter(|&symbol| lengths[symbol] == length) {
            codes[symbol] = next;
            next += 1;
        }
    }
    codes
}

/// Bits in bytes, from the lowest up.
#[derive(Default)]
struct Bits {
    bytes: Vec<u8>,
    used: usize,
}

impl Bits {
    fn bit(&mut self, bit: u32) {
        let within = self.used % 8;
        if within == 0 {
            self.bytes.push(0);
        }
        *self.bytes.last_mut().unwrap() |= (bit as u8) << within;
        self.used += 1;
    }

    /// A number, its lowest bit first.
    fn number(&mut self, number: u32, bits: u32) {
        (0..bits).for_each(|k| self.bit(number >> k & 1));
    }

    /// A code, its highest bit first.
    fn code(&mut self, code: u32, bits: u32) {
        (0..bits).rev().for_each(|k| self.bit(code >> k & 1));
    }
}
