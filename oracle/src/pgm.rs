//! PGM files, Netpbm's P5, restated from document 02's words (K3): the Rust original has no such call. The header's
//! form is a table of states, and its numbers are compared as strings of digits. The bench uses this file too.

/// No header goes on so.
const X: usize = usize::MAX;
/// The states in which a digit belongs to width, height and maximum.
const NUMBERS: [usize; 3] = [5, 8, 11];
/// The header is over.
const PIXELS: usize = 12;

/// For each state the next one, by what the next byte is (`kind`).
const FORM: [[usize; 7]; PIXELS] = [
    // P, 5, another digit, LF or CR, space or tab, #, any other
    [1, X, X, X, X, X, X],       // 0: at the file's start
    [X, 2, X, X, X, X, X],       // 1: behind P
    [X, X, X, 4, 4, 3, X],       // 2: behind P5
    [3, 3, 3, 4, 3, 3, 3],       // 3: in a comment before the width
    [X, 5, 5, 4, 4, 3, X],       // 4: separated from P5
    [X, 5, 5, 7, 7, 6, X],       // 5: in the width
    [6, 6, 6, 7, 6, 6, 6],       // 6: in a comment before the height
    [X, 8, 8, 7, 7, 6, X],       // 7: separated from the width
    [X, 8, 8, 10, 10, 9, X],     // 8: in the height
    [9, 9, 9, 10, 9, 9, 9],      // 9: in a comment before the maximum
    [X, 11, 11, 10, 10, 9, X],   // 10: separated from the height
    [X, 11, 11, 12, 12, X, X],   // 11: in the maximum
];

/// A byte's column of the table.
fn kind(byte: u8) -> usize {
    match byte {
        b'P' => 0,
        b'5' => 1,
        b'0'..=b'9' => 2,
        b'\n' | b'\r' => 3,
        b' ' | b'\t' => 4,
        b'#' => 5,
        _ => 6,
    }
}

/// The digits without leading zeros.
fn plain(digits: &[u8]) -> &[u8] {
    &digits[digits.iter().take_while(|&&digit| digit == b'0').count()..]
}

/// Whether plain digits are a number above a limit's.
fn above(digits: &[u8], limit: &[u8]) -> bool {
    (digits.len(), digits) > (limit.len(), limit)
}

/// The number of at most 1,024 in plain digits.
fn side(digits: &[u8]) -> usize {
    digits.iter().fold(0, |side, digit| 10 * side + usize::from(digit - b'0'))
}

/// Width, height and where the pixels start, or the number of the refusal.
pub fn read(file: &[u8]) -> Result<(usize, usize, usize), u8> {
    let mut numbers = [vec![], vec![], vec![]];
    let (mut state, mut rest) = (0, file);
    while state != PIXELS {
        let (&byte, behind) = rest.split_first().ok_or(14)?;
        state = FORM[state][kind(byte)];
        if state == X {
            return Err(14);
        }
        if let Some(which) = NUMBERS.iter().position(|&number| number == state) {
            numbers[which].push(byte);
        }
        rest = behind;
    }
    let [width, height, maximum] = [plain(&numbers[0]), plain(&numbers[1]), plain(&numbers[2])];
    if width.is_empty() || height.is_empty() {
        return Err(1);
    }
    if above(width, b"1024") || above(height, b"1024") {
        return Err(2);
    }
    if maximum != b"255" {
        return Err(15);
    }
    if rest.len() != side(width) * side(height) {
        return Err(16);
    }
    Ok((side(width), side(height), file.len() - rest.len()))
}

/// The file of a picture's pixels, row by row.
pub fn written(width: usize, height: usize, pixels: &[u8]) -> Vec<u8> {
    [format!("P5\n{width}\n{height}\n255\n").as_bytes(), pixels].concat()
}
