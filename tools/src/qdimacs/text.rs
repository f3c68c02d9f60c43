//! A text of QDIMACS by its words.

/// A word and the line it stands in, counted from 1.
#[derive(Clone, Copy)]
pub struct Word<'a> {
    pub letters: &'a [u8],
    pub line: usize,
}

/// The header's words, and those below its line.
pub struct Text<'a> {
    pub header: Vec<Word<'a>>,
    pub below: Vec<Word<'a>>,
    pub last_line: usize,
}

fn words(line: &[u8], at: usize) -> impl Iterator<Item = Word<'_>> {
    let parts = line.split(|byte| b" \t\r".contains(byte)).filter(|part| !part.is_empty());
    parts.map(move |letters| Word { letters, line: at })
}

impl Text<'_> {
    pub fn of(text: &[u8]) -> Text<'_> {
        let (mut header, mut below, mut last_line) = (Vec::new(), Vec::new(), 1);
        for (line, at) in text.split(|&byte| byte == b'\n').zip(1..) {
            if !line.is_empty() {
                last_line = at;
            }
            if !header.is_empty() {
                below.extend(words(line, at));
            } else if !line.starts_with(b"c") {
                header.extend(words(line, at));
            }
        }
        Text { header, below, last_line }
    }
}

impl Word<'_> {
    pub fn shown(&self) -> String {
        String::from_utf8_lossy(self.letters).into_owned()
    }

    /// Whether it opens a list of quantified variables.
    pub fn opens(&self) -> bool {
        self.letters == b"e" || self.letters == b"a"
    }

    /// Whether it is a whole number, with '-' in front or not; 0 has none.
    pub fn is_number(&self) -> bool {
        let unsigned = self.letters.strip_prefix(b"-");
        let digits = unsigned.unwrap_or(self.letters);
        let is_number = !digits.is_empty() && digits.iter().all(u8::is_ascii_digit);
        is_number && (unsigned.is_none() || digits.iter().any(|&digit| digit != b'0'))
    }

    pub fn is_zero(&self) -> bool {
        self.letters.iter().all(|&digit| digit == b'0')
    }

    pub fn is_negative(&self) -> bool {
        self.letters.starts_with(b"-")
    }

    /// The number without its sign; the highest for one that is higher.
    pub fn variable(&self) -> usize {
        let digit = |value: usize, letter: &u8| {
            value.saturating_mul(10).saturating_add(usize::from(letter.wrapping_sub(b'0')))
        };
        self.letters.iter().filter(|letter| letter.is_ascii_digit()).fold(0, digit)
    }
}

impl Text<'_> {
    /// The header's numbers of variables and of clauses, if it has them.
    pub fn counts(&self) -> Option<(usize, usize)> {
        let [p, cnf, variables, clauses] = &self.header[..] else { return None };
        let is_header = p.letters == b"p" && cnf.letters == b"cnf";
        let are_counts = |word: &Word| word.is_number() && !word.is_negative();
        let has_counts = is_header && are_counts(variables) && are_counts(clauses);
        has_counts.then(|| (variables.variable(), clauses.variable()))
    }
}
