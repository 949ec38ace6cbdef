//! Command line: words of the form --name or --name VALUE.

pub fn has(name: &str) -> bool {
    std::env::args().any(|word| word == name)
}

pub fn value(name: &str) -> Option<String> {
    let words: Vec<String> = std::env::args().collect();
    let place = words.iter().position(|word| word == name)?;
    words.get(place + 1).cloned()
}

/// A decimal or 0x number.
pub fn number(name: &str, otherwise: u64) -> u64 {
    let Some(text) = value(name) else { return otherwise };
    let parsed = match text.strip_prefix("0x") {
        Some(digits) => u64::from_str_radix(digits, 16),
        None => text.parse(),
    };
    parsed.unwrap_or_else(|_| panic!("{name} takes a number, not {text}"))
}
