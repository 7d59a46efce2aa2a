//! The words of a list: labels, names of jobs, and how a message shows them.
use super::is_number;
use crate::clock::whole;
use depot_host::LONGEST_LABEL;

/// What was found, and what is allowed there.
pub type Found = (String, String);

/// What is wrong with a label.
pub fn label_fault(label: &str) -> Option<(String, &'static str)> {
    if label.is_empty() {
        return Some(("no label".into(), "1 to 16 letters, digits, signs or spaces"));
    }
    if let Some(wrong) = label.chars().find(|c| !(' '..='~').contains(c)) {
        let found = format!("{} with {wrong:?} in it", shown(label));
        return Some((found, "plain letters, digits, signs and spaces (bytes 32 to 126)"));
    }
    if label.starts_with(' ') || label.ends_with(' ') {
        return Some((shown(label), "a label that neither begins nor ends with a space"));
    }
    (label.len() > LONGEST_LABEL).then(|| (format!("{}, {} characters", shown(label), label.len()), "1 to 16 characters"))
}

/// The job that a word of the column `after` names.
pub fn number_of(word: &str, labels: &[String]) -> Result<usize, Found> {
    let n = labels.len();
    if is_number(word) {
        let number = word[1..].parse().ok().filter(|number| *number < n);
        return number.ok_or((shown(word), format!("the job numbers #0 to #{}", n - 1)));
    }
    let borne: Vec<usize> = (0..n).filter(|job| labels[*job] == word).collect();
    match borne[..] {
        [job] => Ok(job),
        [] => {
            let hint = if whole(word).is_some() { format!("; job number {word} is written #{word}") } else { String::new() };
            Err((
                format!("{}, which is no job's label", shown(word)),
                format!("labels of this list or job numbers, with a space between them{hint}"),
            ))
        }
        _ => {
            let numbers: Vec<String> = borne.iter().map(|job| format!("#{job}")).collect();
            Err((
                format!("{}, the label of {} jobs", shown(word), borne.len()),
                format!("one of them by its number: {}", numbers.join(" or ")),
            ))
        }
    }
}

/// A field in a message.
pub fn shown(field: &str) -> String {
    if field.is_empty() {
        return "nothing".into();
    }
    format!("'{}'", field.escape_debug())
}
