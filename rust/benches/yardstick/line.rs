//! Typed lines, read by functions that call each other as the grammar's rows name each other, and
//! written from a tree.

use lihambozy::kind;
use lihambozy::{MAX_LINE_BYTES, MAX_ROWS, ROW_WORDS};

/// A refusal: its number and its place.
pub type Refused = (u32, u32);

/// A round bracket or a `<` may be opened inside fewer open ones than this.
const MAX_OPEN: usize = 8;
/// The lines behind a `<`.
const MAX_LINES: u32 = 8;

struct Reader<'a> {
    line: &'a [u8],
    at: usize,
    open: usize,
    rows: usize,
    words: [u32; MAX_ROWS * ROW_WORDS],
}

impl Reader<'_> {
    fn peek(&self) -> u8 {
        // No byte of a line is 0, so that this stands for the end too.
        self.line.get(self.at).copied().unwrap_or(0)
    }

    fn broken<T>(&self) -> Result<T, Refused> {
        Err((21, self.at as u32))
    }

    fn take(&mut self, byte: u8) -> Result<(), Refused> {
        if self.peek() != byte {
            return self.broken();
        }
        self.at += 1;
        Ok(())
    }

    fn row(&mut self, kind: u32, a: u32, b: u32, c: u32) {
        if self.rows < MAX_ROWS {
            self.words[ROW_WORDS * self.rows..][..ROW_WORDS].copy_from_slice(&[kind, a, b, c]);
        }
        self.rows += 1;
    }

    fn number(&mut self, most: u32) -> Result<u32, Refused> {
        if !self.peek().is_ascii_digit() {
            return self.broken();
        }
        let mut number = 0;
        let first = self.at;
        while self.peek().is_ascii_digit() {
            let more = 10 * number + u32::from(self.peek() - b'0');
            if more > most || number == 0 && self.at > first {
                return self.broken();
            }
            number = more;
            self.at += 1;
        }
        Ok(number)
    }

    /// A space and a number.
    fn next(&mut self, most: u32) -> Result<u32, Refused> {
        self.take(b' ')?;
        self.number(most)
    }

    fn predicate(&mut self) -> Result<(), Refused> {
        let letter = self.peek();
        if !b"nbtsa".contains(&letter) {
            return self.broken();
        }
        self.at += 1;
        let a = self.next(65_536)?;
        if letter == b's' {
            self.row(kind::SPAN, 0, 0, a);
            return Ok(());
        }
        let b = self.next(65_536)?;
        match letter {
            b'n' => {
                let c = self.next(65_536)?;
                self.row(kind::NEAR, a, b, c);
            }
            b'b' => self.row(kind::BEFORE, a, b, 0),
            b't' => self.row(kind::SAME_TITLE, a, b, 0),
            _ => {
                let (least, most) = (self.next(65_535)?, self.next(65_535)?);
                self.row(kind::APART, a, b, least << 16 | most);
            }
        }
        Ok(())
    }

    fn pattern(&mut self) -> Result<(), Refused> {
        self.take(b'[')?;
        loop {
            let list = self.number(65_536)?;
            self.row(kind::VOICE, list, 0, 0);
            if self.peek() != b' ' {
                break;
            }
            self.at += 1;
        }
        while self.peek() == b';' {
            self.at += 1;
            self.predicate()?;
        }
        self.take(b']')?;
        self.row(kind::END, 0, 0, 0);
        Ok(())
    }

    /// What stands behind a `<`, and the sign that closes it.
    fn at_least(&mut self) -> Result<(), Refused> {
        let digit = self.peek();
        if !(b'1'..=b'8').contains(&digit) {
            return self.broken();
        }
        self.at += 1;
        self.take(b':')?;
        let least = u32::from(digit - b'0');
        let mut lines = 0;
        loop {
            self.parts()?;
            lines += 1;
            match self.peek() {
                b',' if lines < MAX_LINES => self.at += 1,
                b'>' if lines >= least.max(2) => break,
                _ => return self.broken(),
            }
        }
        self.at += 1;
        self.row(kind::AT_LEAST, least, lines, 0);
        Ok(())
    }

    fn item(&mut self) -> Result<(), Refused> {
        let sign = self.peek();
        if sign != b'(' && sign != b'<' {
            return self.pattern();
        }
        if self.open == MAX_OPEN {
            return Err((22, self.at as u32));
        }
        self.at += 1;
        self.open += 1;
        if sign == b'<' {
            self.at_least()?;
        } else {
            self.parts()?;
            self.take(b')')?;
        }
        self.open -= 1;
        Ok(())
    }

    fn items(&mut self) -> Result<(), Refused> {
        self.item()?;
        loop {
            let kind = match self.peek() {
                b'&' => kind::BOTH,
                b'!' => kind::FIRST_NOT_SECOND,
                _ => return Ok(()),
            };
            self.at += 1;
            self.item()?;
            self.row(kind, 0, 0, 0);
        }
    }

    fn parts(&mut self) -> Result<(), Refused> {
        self.items()?;
        while self.peek() == b'|' {
            self.at += 1;
            self.items()?;
            self.row(kind::EITHER, 0, 0, 0);
        }
        Ok(())
    }
}

/// Reads a line to the front of `out`: how many words its rows are.
pub fn read(line: &[u8], out: &mut [u32]) -> Result<u32, Refused> {
    if line.len() > MAX_LINE_BYTES {
        return Err((21, MAX_LINE_BYTES as u32));
    }
    let mut reader = Reader { line, at: 0, open: 0, rows: 0, words: [0; MAX_ROWS * ROW_WORDS] };
    reader.parts()?;
    if reader.at < line.len() {
        return reader.broken();
    }
    if reader.rows > MAX_ROWS {
        return Err((23, 0));
    }
    let words = &reader.words[..ROW_WORDS * reader.rows];
    match out.get_mut(..words.len()) {
        Some(front) => front.copy_from_slice(words),
        None => return Err((16, 0)),
    }
    Ok(words.len() as u32)
}

struct Writer<'a> {
    plan: &'a [u32],
    /// The first row of what each END and each operator answers.
    first: [usize; MAX_ROWS],
    line: Vec<u8>,
}

impl Writer<'_> {
    fn kind(&self, row: usize) -> u32 {
        self.plan[ROW_WORDS * row]
    }

    fn number(&mut self, before: u8, number: u32) {
        let mut digits = [0; 10];
        let (mut at, mut left) = (digits.len(), number);
        loop {
            at -= 1;
            digits[at] = b'0' + (left % 10) as u8;
            left /= 10;
            if left == 0 {
                break;
            }
        }
        self.line.push(before);
        self.line.extend(&digits[at..]);
    }

    fn pattern(&mut self, end: usize) {
        let mut before = b'[';
        for row in self.first[end]..end {
            let [kind, a, b, c]: [u32; 4] = self.plan[ROW_WORDS * row..][..4].try_into().unwrap();
            let (letter, numbers): (u8, &[u32]) = match kind {
                kind::VOICE => {
                    self.number(before, a);
                    before = b' ';
                    continue;
                }
                kind::NEAR => (b'n', &[a, b, c]),
                kind::BEFORE => (b'b', &[a, b]),
                kind::SAME_TITLE => (b't', &[a, b]),
                kind::SPAN => (b's', &[c]),
                _ => (b'a', &[a, b, c >> 16, c & 65_535]),
            };
            self.line.extend([b';', letter]);
            numbers.iter().for_each(|&number| self.number(b' ', number));
        }
        self.line.push(b']');
    }

    fn side(&mut self, last: usize, is_bracketed: bool) {
        if is_bracketed {
            self.line.push(b'(');
        }
        self.answer(last);
        if is_bracketed {
            self.line.push(b')');
        }
    }

    /// The lines of an AT LEAST.
    fn some(&mut self, last: usize) {
        let [_, least, of, _]: [u32; 4] = self.plan[ROW_WORDS * last..][..4].try_into().unwrap();
        let mut ends = [last; MAX_LINES as usize];
        let ends = &mut ends[..of as usize];
        let mut behind = last;
        for end in ends.iter_mut().rev() {
            *end = behind - 1;
            behind = self.first[*end];
        }
        self.number(b'<', least);
        let mut before = b':';
        for &end in &*ends {
            self.line.push(before);
            self.answer(end);
            before = b',';
        }
        self.line.push(b'>');
    }

    /// What is answered by the row `last`.
    fn answer(&mut self, last: usize) {
        let kind = self.kind(last);
        if kind == kind::END {
            return self.pattern(last);
        }
        if kind == kind::AT_LEAST {
            return self.some(last);
        }
        let second = last - 1;
        let first = self.first[second] - 1;
        let [left, right] = [first, second].map(|row| self.kind(row));
        let sign = match kind {
            kind::BOTH => b'&',
            kind::EITHER => b'|',
            _ => b'!',
        };
        self.side(first, left == kind::EITHER && sign != b'|');
        self.line.push(sign);
        let is_item = right == kind::END || right == kind::AT_LEAST;
        self.side(second, !is_item && (sign != b'|' || right == kind::EITHER));
    }
}

/// Writes the line of an accepted plan to the front of `out`: how many bytes it has.
pub fn write(plan: &[u32], out: &mut [u8]) -> Result<u32, Refused> {
    let rows = plan.len() / ROW_WORDS;
    let line = Vec::with_capacity(MAX_LINE_BYTES);
    let mut writer = Writer { plan, first: [0; MAX_ROWS], line };
    let (mut starts, mut from) = (vec![], 0);
    for row in 0..rows {
        let start = match writer.kind(row) {
            kind::END => from,
            kind::BOTH | kind::EITHER | kind::FIRST_NOT_SECOND => {
                starts.pop();
                starts.pop().unwrap_or(0)
            }
            kind::AT_LEAST => {
                let lines = plan[ROW_WORDS * row + 2] as usize;
                starts.drain(starts.len() - lines..).next().unwrap_or(0)
            }
            _ => continue,
        };
        writer.first[row] = start;
        starts.push(start);
        from = row + 1;
    }
    writer.answer(rows - 1);
    let line = writer.line;
    match out.get_mut(..line.len()) {
        Some(front) => front.copy_from_slice(&line),
        None => return Err((16, 0)),
    }
    Ok(line.len() as u32)
}
