//! A line's fields: separated by commas, or by semicolons or tabs, as some spreadsheets write them; spaces around them dropped.
//! In double quotes a field is taken as it stands, a double quote in it written twice.

/// What separates the fields of a list with this first line; none where the line has one field.
pub fn separator(line: &str) -> Option<char> {
    [',', ';', '\t'].into_iter().find(|sign| line.contains(*sign))
}

/// A text without the spaces at its edges; a separator is none.
pub fn trimmed(text: &str, separator: char) -> &str {
    text.trim_matches(|c: char| c.is_whitespace() && c != separator)
}

/// The same at its front alone.
fn from_first(text: &str, separator: char) -> &str {
    text.trim_start_matches(|c: char| c.is_whitespace() && c != separator)
}

/// A field, and whether it stood in double quotes.
#[derive(Debug, PartialEq, Eq)]
pub struct Field {
    pub text: String,
    pub quoted: bool,
}

/// The fields of a line, or the number of the field, from 1, that is wrong and how. The field at the place `names` may have double quotes
/// around some of its words.
pub fn fields(line: &str, separator: char, names: Option<usize>) -> Result<Vec<Field>, (usize, &'static str)> {
    let mut fields = Vec::new();
    let mut rest = from_first(line, separator);
    loop {
        let whole = field(rest, separator);
        let read = if names == Some(fields.len()) { whole.or_else(|_| parts(rest, separator)) } else { whole };
        let (field, behind) = read.map_err(|why| (fields.len() + 1, why))?;
        fields.push(field);
        match behind.strip_prefix(separator) {
            Some(next) => rest = from_first(next, separator),
            None => return Ok(fields),
        }
    }
}

/// The first field, and what stands behind it: nothing, or a separator and more.
fn field(text: &str, separator: char) -> Result<(Field, &str), &'static str> {
    if let Some(quoted) = text.strip_prefix('"') {
        return closed(quoted, separator).map(|(text, behind)| (Field { text, quoted: true }, behind));
    }
    let end = text.find(separator).unwrap_or(text.len());
    let field = text[..end].trim_end();
    if field.contains('"') {
        return Err("a double quote inside a field that does not begin with one");
    }
    Ok((Field { text: field.into(), quoted: false }, &text[end..]))
}

/// The first field as it stands, up to a separator that is not in double quotes.
fn parts(text: &str, separator: char) -> Result<(Field, &str), &'static str> {
    let mut open = false;
    let end = text.find(|c| {
        open ^= c == '"';
        c == separator && !open
    });
    let end = end.unwrap_or(text.len());
    if text[..end].matches('"').count() % 2 == 1 {
        return Err("a double quote that nothing closes");
    }
    Ok((Field { text: text[..end].trim_end().into(), quoted: false }, &text[end..]))
}

/// The rest of a quoted field.
fn closed(text: &str, separator: char) -> Result<(String, &str), &'static str> {
    let mut field = String::new();
    let mut rest = text;
    loop {
        let quote = rest.find('"').ok_or("a double quote that nothing closes")?;
        field.push_str(&rest[..quote]);
        rest = &rest[quote + 1..];
        match rest.strip_prefix('"') {
            Some(more) => {
                field.push('"');
                rest = more;
            }
            None => break,
        }
    }
    rest = from_first(rest, separator);
    if rest.is_empty() || rest.starts_with(separator) {
        return Ok((field, rest));
    }
    Err("text behind a closing double quote")
}

/// A field as it is written: in quotes where it would be read otherwise without them.
pub fn written(field: &str) -> String {
    if field.contains([',', '"']) || is_remark(field) {
        return format!("\"{}\"", field.replace('"', "\"\""));
    }
    field.into()
}

/// Whether a line is a remark: `#` alone, or with a space behind it, so that no label and no job number begins one.
pub fn is_remark(line: &str) -> bool {
    line.strip_prefix('#').is_some_and(|rest| rest.is_empty() || rest.starts_with(char::is_whitespace))
}

#[cfg(test)]
mod tests {
    use super::*;

    fn texts(line: &str, separator: char) -> Vec<String> {
        fields(line, separator, None).unwrap().into_iter().map(|field| field.text).collect()
    }

    #[test]
    fn fields_of_lines() {
        let of = |line| texts(line, ',');
        assert_eq!(of(""), [""]);
        assert_eq!(of(" a , b,,c "), ["a", "b", "", "c"]);
        assert_eq!(of(r#""a,b" , """" ,"#), ["a,b", "\"", ""]);
        assert_eq!(fields("a,\"b", ',', None), Err((2, "a double quote that nothing closes")));
        assert_eq!(fields("\"b\"x", ',', None), Err((1, "text behind a closing double quote")));
        assert_eq!(fields("a,b,c\"d", ',', None), Err((3, "a double quote inside a field that does not begin with one")));
    }

    #[test]
    fn names() {
        let of = |line| fields(line, ',', Some(1)).map(|fields| (fields[1].text.clone(), fields[1].quoted, fields.len()));
        assert_eq!(of(r#"a,"N 417 B" A301 ,c"#), Ok((r#""N 417 B" A301"#.into(), false, 3)));
        assert_eq!(of(r#"a,A301 "x, y",c"#), Ok((r#"A301 "x, y""#.into(), false, 3)));
        assert_eq!(of(r#"a,"N 417 B",c"#), Ok(("N 417 B".into(), true, 3)));
        assert_eq!(of(r#"a,"""N 417 B"" A301",c"#), Ok((r#""N 417 B" A301"#.into(), true, 3)));
        assert_eq!(of(r#"a,"N 417 B,c"#), Err((2, "a double quote that nothing closes")));
    }

    #[test]
    fn semicolons_and_tabs() {
        let signs = [Some(';'), Some(','), Some(','), Some('\t'), None];
        assert_eq!(["cabinet;16", "cabinet,16", "a;b,c", "a\tb", "label"].map(separator), signs);
        assert_eq!(texts("a,b;\"c;d\" ;", ';'), ["a,b", "c;d", ""]);
        assert_eq!(texts("\ta \t \"b\"\t\tc", '\t'), ["", "a", "b", "", "c"]);
    }

    #[test]
    fn remarks() {
        assert!(is_remark("#") && is_remark("# 1,2") && is_remark("#\tx"));
        assert!(!is_remark("#0,25") && !is_remark("#,1") && !is_remark("x # y") && !is_remark(""));
    }

    #[test]
    fn every_field_is_read_as_it_was_written() {
        for field in ["", "a", "#", "#1", "# 1", "N 417 B", "a,b", "\"", "\"\"", "a b", "'", ";", "x\"", ","] {
            let line = format!("{},{}", written(field), written(field));
            assert_eq!(texts(&line, ','), [field, field]);
            assert!(!is_remark(&line));
        }
    }
}
