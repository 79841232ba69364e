//! How the command was called, so that what it advises can be typed as it stands.
use std::ffi::OsString;

/// The word that called it: the script's where one says so, else its own first word; fit for a shell.
pub fn called() -> String {
    let script = std::env::var_os("PRESET_CALLED");
    let each = [script, std::env::args_os().next()];
    let mut words = each.into_iter().flatten().filter_map(word);
    words.next().unwrap_or_else(|| "preset".into())
}

// A word as a shell takes it; none of an empty one, and of one that a terminal does not show as it is.
fn word(own: OsString) -> Option<String> {
    let own = own.into_string().ok()?;
    let plain = |c: char| c.is_ascii_alphanumeric() || "_-./+,:@%".contains(c);
    if own.is_empty() || preset::shown::file(own.as_ref()) != own || own.contains('\t') {
        None
    } else if own.chars().all(plain) {
        Some(own)
    } else {
        Some(format!("'{}'", own.replace('\'', "'\\''")))
    }
}

#[cfg(test)]
mod tests {
    use super::word;

    #[test]
    fn words_are_fit_for_a_shell() {
        let word = |own: &str| word(own.into());
        assert_eq!(word("./preset").as_deref(), Some("./preset"));
        assert_eq!(word("../a-b/preset").as_deref(), Some("../a-b/preset"));
        assert_eq!(
            word("my tools/preset").as_deref(),
            Some("'my tools/preset'")
        );
        assert_eq!(word("a=b").as_deref(), Some("'a=b'"));
        assert_eq!(word("~/é$(x)").as_deref(), Some("'~/é$(x)'"));
        assert_eq!(word("it's").as_deref(), Some("'it'\\''s'"));
        assert_eq!(word(""), None);
        assert_eq!(word("a\u{1b}b"), None);
        assert_eq!(word("a\tb"), None);
    }
}
