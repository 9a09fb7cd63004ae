//! A table of cases: reading it, and running each of its rows.
//!
//! A line that is empty or begins with `#` is passed over. Any other line that does not begin with two spaces is a case. What is
//! expected stands in the lines below that begin with two spaces; where there are none, behind the last ` = ` of the line.

/// A case, and what the table expects.
#[derive(Debug, PartialEq, Eq)]
pub struct Case {
    /// The line of the table where it stands, from 1.
    pub line: usize,
    pub input: Vec<u8>,
    /// The expected lines, with a byte 10 between them.
    pub expected: Vec<u8>,
}

/// What answers a case, or says why it is none.
pub type Answer = fn(&[u8]) -> Result<Vec<u8>, String>;

/// A case as it stands in a table.
struct Row<'a> {
    line: usize,
    text: &'a [u8],
    below: Vec<&'a [u8]>,
}

/// The cases of a table; an error where it has none, or one without an expectation.
pub fn cases(table: &[u8]) -> Result<Vec<Case>, String> {
    let mut rows: Vec<Row> = Vec::new();
    for (place, text) in table.split(|byte| *byte == b'\n').enumerate() {
        let line = place + 1;
        match text.strip_prefix(b"  ") {
            Some(expected) => match rows.last_mut() {
                Some(row) => row.below.push(expected),
                None => return Err(format!("line {line}: this is expected of no case")),
            },
            None if text.is_empty() || text.starts_with(b"#") => {}
            None => rows.push(Row {
                line,
                text,
                below: Vec::new(),
            }),
        }
    }
    if rows.is_empty() {
        return Err("the table has no case".to_string());
    }
    rows.into_iter().map(Row::case).collect()
}

impl Row<'_> {
    fn case(self) -> Result<Case, String> {
        let Row { line, text, below } = self;
        let (input, expected) = if below.is_empty() {
            let sign = text.windows(3).rposition(|three| three == b" = ");
            let place = sign.ok_or_else(|| format!("line {line}: nothing is expected of this case"))?;
            (text[..place].to_vec(), text[place + 3..].to_vec())
        } else {
            (text.to_vec(), below.join(&b'\n'))
        };
        Ok(Case { line, input, expected })
    }
}

/// Runs every case of a table, and gives their number; an error names each row that is wrong.
pub fn run(table: &[u8], answer: Answer) -> Result<usize, String> {
    let cases = cases(table)?;
    let wrong: Vec<String> = cases.iter().filter_map(|case| wrong(case, answer)).collect();
    if wrong.is_empty() {
        return Ok(cases.len());
    }
    Err(format!("{} of {} cases are wrong\n{}", wrong.len(), cases.len(), wrong.join("\n")))
}

/// What is wrong with a case, if anything is.
fn wrong(case: &Case, answer: Answer) -> Option<String> {
    let told = match answer(&case.input) {
        Ok(text) if text == case.expected => return None,
        Ok(text) => format!("answered:\n{}", String::from_utf8_lossy(&text)),
        Err(reason) => format!("this is no case of the table: {reason}"),
    };
    let input = String::from_utf8_lossy(&case.input);
    let expected = String::from_utf8_lossy(&case.expected);
    Some(format!("line {}: {input}\nexpected:\n{expected}\n{told}", case.line))
}
