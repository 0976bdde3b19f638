//! The names that a file of the crates defines.

/// Words before the name in a definition of the logic.
const MARKS: [&str; 5] = ["pub", "abbrev", "unfoldable", "record", "data"];
/// Words before the name in a definition of the code.
const KINDS: [&str; 6] = ["fn", "struct", "enum", "trait", "const", "mod"];

/// Names defined in the logic: `name : ..`, also of fields, constructors and
/// what stands in a module, and `record Name ..`, `data Name ..`.
pub fn of_logic(text: &str) -> Vec<&str> {
    text.lines()
        .filter(|line| !line.starts_with("use ") && !line.trim_start().starts_with("--"))
        .filter_map(|line| {
            let mut words = line.split_whitespace().peekable();
            let mut named = false;
            while words.peek().is_some_and(|word| MARKS.contains(word)) {
                named |= matches!(words.next(), Some("record" | "data"));
            }
            let name = words.next()?;
            (named || words.next() == Some(":")).then(|| name.trim_matches(['«', '»']))
        })
        .collect()
}

/// Names defined in the code: functions, types, traits, constants and modules, the
/// fields and variants of a struct or an enum, and parameters, where each has a
/// line of its own.
pub fn of_code(text: &str) -> Vec<&str> {
    let mut names = Vec::new();
    let mut members = false;
    for line in text
        .lines()
        .filter(|line| !line.trim_start().starts_with("//"))
    {
        let words: Vec<&str> = line.split_whitespace().collect();
        let kind = words.iter().position(|word| KINDS.contains(word));
        let name = match kind {
            Some(at) => words.get(at + 1),
            None if members && words.first() == Some(&"pub") => words.get(1),
            None if members => words.first(),
            None => None,
        };
        let name = name.and_then(|name| name.split(['(', '<', ':', ',', ';']).next());
        names.extend(name.filter(|name| !name.is_empty() && *name != "}"));
        members = match kind {
            Some(at) => matches!(words[at], "struct" | "enum") || line.ends_with('('),
            None => members && !line.starts_with(['}', ')']),
        };
    }
    names
}
