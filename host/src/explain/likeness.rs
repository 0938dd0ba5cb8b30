//! What a file looks like that was written, saved or sent another way than MIGRA has it: with a
//! byte-order mark, with other line ends, in UTF-8. It pushes records out of step (11, 20).

use crate::picture::many;

const UTF_8_MARK: &[u8] = b"\xEF\xBB\xBF";
const UTF_16_MARKS: [&[u8]; 2] = [b"\xFF\xFE", b"\xFE\xFF"];

/// All that the bytes look like; nothing of a file that looks as it should.
pub fn words(bytes: &[u8]) -> String {
    let rest = bytes.strip_prefix(UTF_8_MARK).unwrap_or(bytes);
    let each = [mark_words(bytes), line_words(bytes), letter_words(rest)];
    let said: Vec<String> = each.into_iter().filter(|words| !words.is_empty()).collect();
    said.join(" ")
}

fn mark_words(bytes: &[u8]) -> String {
    if bytes.starts_with(UTF_8_MARK) {
        return "It begins with the bytes EF BB BF: a byte-order mark, as editors put before UTF-8 \
                text. MIGRA has none."
            .to_string();
    }
    if UTF_16_MARKS.iter().any(|mark| bytes.starts_with(mark)) {
        return "It begins with a byte-order mark of UTF-16 text, which has two bytes a letter. \
                MIGRA has neither."
            .to_string();
    }
    String::new()
}

/// What the lines end in, where none ends in both end bytes.
fn line_words(bytes: &[u8]) -> String {
    let has = |end: &[u8]| bytes.windows(end.len()).any(|part| part == end);
    match (has(b"\r\n"), has(b"\n"), has(b"\r")) {
        (false, true, _) => "Its lines end in a line feed alone (0A): the carriage returns (0D) \
                             were never written, or were lost in a transfer as text."
            .to_string(),
        (false, false, true) => "Its lines end in a carriage return alone (0D): the line feeds \
                                 (0A) were never written, or were lost in a transfer as text."
            .to_string(),
        _ => String::new(),
    }
}

/// Whether letters beyond ASCII are in UTF-8, where each has a byte more, or more than one.
fn letter_words(bytes: &[u8]) -> String {
    let text = match std::str::from_utf8(bytes) {
        Ok(text) if !text.is_ascii() => text,
        _ => return String::new(),
    };
    let letters = text.chars().filter(|letter| !letter.is_ascii()).count();
    let more = bytes.len() - text.chars().count();
    format!(
        "It looks like UTF-8: it has {} that ASCII has not, which take {} more there than in ISO \
         8859-1.",
        many(letters, "letter"),
        many(more, "byte")
    )
}
