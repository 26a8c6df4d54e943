//! A book of cards, read line by line.

const LONGEST_TEXT: usize = 8192;
const MOST_CURVES: usize = 64;
const BLANK: u8 = b' ';
const LINE_END: u8 = 10;

/// What of the text is not read yet, and its byte place.
struct Reader<'a> {
    rest: &'a [u8],
    place: usize,
}

impl<'a> Reader<'a> {
    /// Goes past so many bytes.
    fn skip(&mut self, length: usize) {
        self.rest = &self.rest[length..];
        self.place += length;
    }

    /// A number of 1 to 7 digits, and the byte that ends it.
    fn digits(&mut self) -> Option<(i32, u8)> {
        let rest = self.rest;
        let mut value = 0;
        for (length, &byte) in rest.iter().take(8).enumerate() {
            if !byte.is_ascii_digit() {
                let good = length == 1 || (length > 1 && rest[0] != b'0');
                self.skip(length + 1);
                return good.then_some((value, byte));
            }
            value = 10 * value + i32::from(byte - b'0');
        }
        None
    }

    /// A number and this byte.
    fn number(&mut self, end: u8) -> Option<i32> {
        let (value, ended) = self.digits()?;
        (ended == end).then_some(value)
    }

    /// The same with an optional minus before a number other than 0.
    fn signed(&mut self, end: u8) -> Option<i32> {
        if self.rest.first() != Some(&b'-') {
            return self.number(end);
        }
        self.skip(1);
        let value = self.number(end)?;
        (value > 0).then_some(-value)
    }

    /// A name of 1 to 8 capitals or digits and the blank after it.
    fn name(&mut self) -> Option<&'a [u8]> {
        let rest = self.rest;
        let length = rest.iter().take(9).position(|&byte| byte == BLANK)?;
        let name = &rest[..length];
        let good = |byte: &u8| byte.is_ascii_uppercase() || byte.is_ascii_digit();
        if name.is_empty() || !name.iter().all(good) {
            return None;
        }
        self.skip(length + 1);
        Some(name)
    }

    /// A body's eight numbers, and the height and the grade where they follow.
    fn body(&mut self, card: &mut [i32]) -> Option<()> {
        for number in &mut card[..7] {
            *number = self.number(BLANK)?;
        }
        let (unit, ended) = self.digits()?;
        card[7] = unit;
        match ended {
            LINE_END => card[8..].fill(0),
            BLANK => {
                let (height, grade) = (self.signed(BLANK)?, self.signed(LINE_END)?);
                card[8..].copy_from_slice(&[1, height, grade]);
            }
            _ => return None,
        }
        Some(())
    }
}

/// Numbers a curve: place and length of the name, then the card.
const CURVE: usize = 13;
type Curves = [[i32; CURVE]; MOST_CURVES];

/// The number of a refusal, and its line.
type Fault = (u32, u32);

/// The contents lines: places and lengths of the names.
fn contents(reader: &mut Reader, count: usize, curves: &mut Curves) -> Result<(), Fault> {
    // Names are compared as eight bytes, with noughts after the shorter ones.
    let mut names = [[0; 8]; MOST_CURVES];
    for i in 0..count {
        let line = i as u32 + 2;
        let place = reader.place;
        let name = reader.name().ok_or((23, line))?;
        let due = reader.number(LINE_END).ok_or((23, line))?;
        if due as usize != count + 2 + i {
            return Err((24, line));
        }
        let mut padded = [0; 8];
        padded[..name.len()].copy_from_slice(name);
        if names[..i].contains(&padded) {
            return Err((25, line));
        }
        names[i] = padded;
        curves[i][0] = place as i32;
        curves[i][1] = name.len() as i32;
    }
    Ok(())
}

/// The count of curves, or the fault.
fn read(text: &[u8], curves: &mut Curves) -> Result<usize, Fault> {
    let mut reader = Reader {
        rest: text,
        place: 0,
    };
    let count = match reader.number(LINE_END) {
        Some(count @ 1..=64) => count as usize,
        _ => return Err((22, 1)),
    };
    contents(&mut reader, count, curves)?;
    for (i, curve) in curves[..count].iter_mut().enumerate() {
        let line = (count + 2 + i) as u32;
        reader.body(&mut curve[2..]).ok_or((26, line))?;
    }
    if reader.rest.is_empty() {
        Ok(count)
    } else {
        Err((27, 2 * count as u32 + 2))
    }
}

/// The book's number, the count of curves and the line.
#[inline(never)]
pub fn read_book(text: &[u8], list: &mut [i32]) -> (u32, u32, u32) {
    if list.len() < CURVE * MOST_CURVES {
        return (28, 0, 0);
    }
    if text.is_empty() || text.len() > LONGEST_TEXT {
        return (21, 0, 0);
    }
    let mut curves = [[0; CURVE]; MOST_CURVES];
    match read(text, &mut curves) {
        Ok(count) => {
            list[..CURVE * count].copy_from_slice(curves[..count].as_flattened());
            (0, count as u32, 0)
        }
        Err((number, line)) => (number, 0, line),
    }
}

#[cfg(test)]
mod tests {
    use super::read_book;

    fn answer(text: &str) -> (u32, u32, u32) {
        read_book(text.as_bytes(), &mut [0; 832])
    }

    #[test]
    fn accepted() {
        let mut list = [9; 833];
        let text = b"1\nRAMP 3\n5 1 30 30000 60 600 20000 1\n";
        assert_eq!(read_book(text, &mut list), (0, 1, 0));
        assert_eq!(list[..10], [2, 4, 5, 1, 30, 30000, 60, 600, 20000, 1]);
        assert_eq!(list[10..14], [0, 0, 0, 9]);
        assert_eq!(read_book(text, &mut list[..831]), (28, 0, 0));
    }

    #[test]
    fn absolute() {
        let mut list = [9; 832];
        let text = b"1\nRAMP 3\n5 1 30 30000 60 600 20000 1 250000 -35\n";
        assert_eq!(read_book(text, &mut list), (0, 1, 0));
        assert_eq!(list[10..14], [1, 250_000, -35, 9]);
        let body = |words: &str| answer(&format!("1\nA 3\n1 2 3 4 5 6 7 {words}\n")).0;
        for words in ["8", "8 0 0", "8 -9999999 9999999", "8 7 -7"] {
            assert_eq!(body(words), 0, "{words}");
        }
        for words in [
            "-8",
            "8 ",
            "8 9",
            "8 -0 1",
            "8 1 -0",
            "8 - 1",
            "8 +7 1",
            "8 -07 1",
            "8 1 -10000000",
            "8 1 2 3",
            "8  1 2",
            "8 1  2",
            "8 1 2 ",
            "8 --7 1",
            "8 7- 1",
        ] {
            assert_eq!(body(words), 26, "{words}");
        }
    }

    #[test]
    fn refused() {
        assert_eq!(answer(""), (21, 0, 0));
        assert_eq!(answer("65\n"), (22, 0, 1));
        assert_eq!(answer("01\n"), (22, 0, 1));
        assert_eq!(answer("1"), (22, 0, 1));
        assert_eq!(answer("1\n"), (23, 0, 2));
        assert_eq!(answer("1\nA 4 \n"), (23, 0, 2));
        assert_eq!(answer("1\nA 4\n"), (24, 0, 2));
        assert_eq!(answer("1\nABCDEFGHI 3\n"), (23, 0, 2));
        assert_eq!(answer("2\nA 4\nA 5\n"), (25, 0, 3));
        assert_eq!(answer("1\nA 3\n1 2 3 4 5 6 7\n"), (26, 0, 3));
        assert_eq!(answer("1\nA 3\n1 2 3 4 5 6 7 12345678\n"), (26, 0, 3));
        assert_eq!(answer("1\nA 3\n1 2 3 4 5 6 7 8"), (26, 0, 3));
        assert_eq!(answer("1\nA 3\n1 2 3 4 5 6 7 8\n\n"), (27, 0, 4));
    }
}
