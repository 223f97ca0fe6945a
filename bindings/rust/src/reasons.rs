//! The lines of an account, and those of them that say what the refusal is about.
use crate::error::Cause;

// What begins a line about something that happened, and not about the refusal.
const EVENTS: [&str; 6] = ["insert ", "update ", "delete ", "trigger ", "statement ", "saw "];
// What follows the name of a foreign key that acted.
const ACTIONS: [&str; 3] = ["CASCADE on ", "SET NULL on ", "SET DEFAULT on "];

/// The lines of what the library writes of a statement. A text stands between quotes, with each of its quotes doubled, so a line feed
/// between quotes is the text's own. The one other quote is that of `isn't there`; before a text no small letter stands.
fn lines(text: &str) -> Vec<&str> {
    let (mut found, mut from, mut is_in_text) = (Vec::new(), 0, false);
    for (at, byte) in text.bytes().enumerate() {
        if byte == b'\'' && (is_in_text || !text[..at].ends_with("isn")) {
            is_in_text = !is_in_text;
        } else if byte == b'\n' && !is_in_text {
            found.push(&text[from..at]);
            from = at + 1;
        }
    }
    found
}

/// The lines of the account, below that of the statement.
pub fn account_of(text: &str) -> Vec<String> {
    lines(text).into_iter().skip(1).filter(|line| line.starts_with("  ")).map(str::to_owned).collect()
}

fn is_event(line: &str) -> bool {
    let acts = |(_, rest): (&str, &str)| ACTIONS.iter().any(|words| rest.starts_with(words));
    EVENTS.iter().any(|word| line.starts_with(word)) || line.split_once(' ').is_some_and(acts)
}

/// The lines of an account that say what the refusal is about. A statement that is refused for its text has no other lines.
pub fn reasons(account: &[String], cause: Cause) -> Vec<String> {
    let is_of_text = matches!(
        cause,
        Cause::Unknown | Cause::Duplicate | Cause::SchemaFault | Cause::UnknownSavepoint | Cause::NotDeferrable | Cause::WrongShape | Cause::Limit
    );
    account.iter().map(|line| line.trim_start_matches(' ')).filter(|line| is_of_text || !is_event(line)).map(str::to_owned).collect()
}
