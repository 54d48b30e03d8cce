//! Comma-separated text (RFC 4180) cut into lines and fields. First it is found of
//! every byte whether it stands within quotes; then the line ends and the commas that
//! do not are where the text is cut; what is left is looked at field by field.

/// What is wrong with the quotes of a field.
#[derive(Clone, Copy, Debug, PartialEq, Eq)]
pub enum QuoteFault {
    /// In a field that does not begin with one.
    OutOfPlace,
    Unclosed,
    /// More stands behind the closing one, before the comma or line end.
    NotFollowed,
}

/// The fields of a line, a character for each byte, or what its first field with
/// faulty quotes has.
pub type Line = Result<Vec<String>, QuoteFault>;

/// A byte as a character, and whether it stands within quotes.
type Mark = (char, bool);

const COMMA: Mark = (',', false);
const LF: Mark = ('\n', false);
const CR: Mark = ('\r', false);

/// Stands for a doubled quote while others are looked for: no byte is this character.
const DOUBLED: &str = "\u{100}";

/// Within quotes is what has an odd number of them before it: a doubled quote counts
/// twice and changes nothing. Past a fault this may be wrong, but no line behind the
/// fault's own is ever named.
fn marked(text: &[u8]) -> Vec<Mark> {
    let mut within = false;
    let marks = text.iter().map(|byte| {
        within ^= *byte == b'"';
        (char::from(*byte), within)
    });
    marks.collect()
}

/// The lines of a text; the empty one is a line too.
pub fn lines(text: &[u8]) -> Vec<Line> {
    cut(&marked(text)).iter().map(line).collect()
}

/// The lines without what a spreadsheet program fills a table up with: fields of no
/// bytes at the end of a line, and lines of nothing else at the end of the text. The
/// first field and the first line stay.
pub fn unfilled(text: &[u8]) -> Vec<Line> {
    let marks = marked(text);
    let mut lines = cut(&marks);
    for fields in &mut lines {
        while matches!(fields[..], [_, .., []]) {
            fields.pop();
        }
    }
    while matches!(&lines[..], [_, .., last] if matches!(last[..], [[]])) {
        lines.pop();
    }
    lines.iter().map(line).collect()
}

/// Into lines, and these into fields as they stand, quotes and all.
fn cut(marks: &[Mark]) -> Vec<Vec<&[Mark]>> {
    if marks.is_empty() {
        return vec![vec![marks]];
    }
    let ended = marks.split_inclusive(|mark| *mark == LF);
    let fields = |line| without_end(line).split(|mark| *mark == COMMA).collect();
    ended.map(fields).collect()
}

/// A CR belongs to the line end only before a LF.
fn without_end(line: &[Mark]) -> &[Mark] {
    match line {
        [line @ .., CR, LF] => line,
        [line @ .., LF] => line,
        _ => line,
    }
}

fn line(fields: &Vec<&[Mark]>) -> Line {
    let fields = fields.iter();
    let fields = fields.map(|marks| marks.iter().map(|mark| mark.0).collect());
    fields.map(|field: String| content(&field)).collect()
}

/// What a field says.
fn content(field: &str) -> Result<String, QuoteFault> {
    if !field.contains('"') {
        return Ok(field.to_string());
    }
    let Some(behind) = field.strip_prefix('"') else {
        return Err(QuoteFault::OutOfPlace);
    };
    match behind.replace("\"\"", DOUBLED).split_once('"') {
        None => Err(QuoteFault::Unclosed),
        Some((said, "")) => Ok(said.replace(DOUBLED, "\"")),
        Some(_) => Err(QuoteFault::NotFollowed),
    }
}
