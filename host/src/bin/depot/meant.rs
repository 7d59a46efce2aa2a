//! The word that is meant by one that is not known.

/// The known word that is near, to be said behind one that is not known; nothing where none is.
pub fn perhaps<'a>(word: &str, known: impl IntoIterator<Item = &'a &'a str>) -> String {
    let near = known.into_iter().find(|known| known.len() > 2 && is_near(word, known));
    near.map_or(String::new(), |known| format!(", perhaps '{known}'"))
}

/// Whether a word is another but for one sign that is missing, too many or another, or two that are swapped.
pub fn is_near(word: &str, known: &str) -> bool {
    let (word, known) = (word.as_bytes(), known.as_bytes());
    let same = word.iter().zip(known).take_while(|(a, b)| a == b).count();
    let (word, known) = (&word[same..], &known[same..]);
    match (word, known) {
        ([], []) => true,
        ([a, b, rest @ ..], [c, d, other @ ..]) if a == d && b == c && rest == other => true,
        _ => {
            word.get(1..) == Some(known)
                || known.get(1..) == Some(word)
                || word.get(1..).is_some() && word.get(1..) == known.get(1..)
        }
    }
}
