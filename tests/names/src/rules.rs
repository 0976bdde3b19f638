//! Citations of the rules, as `RULES, Rounds 4`: the section is there, and has a
//! rule of that number.

/// Sections of the page with the rules, each with its number of rules.
pub struct Rules {
    sections: Vec<(String, usize)>,
}

/// The number that a text begins with, and what follows it.
fn number(text: &str) -> Option<(usize, &str)> {
    let end = text
        .find(|letter: char| !letter.is_ascii_digit())
        .unwrap_or(text.len());
    Some((text[..end].parse().ok()?, &text[end..]))
}

impl Rules {
    pub fn of(page: &str) -> Self {
        let mut sections: Vec<(String, usize)> = Vec::new();
        for line in page.lines() {
            if let Some(name) = line.strip_prefix("## ") {
                sections.push((name.to_string(), 0));
            }
            let rule = number(line).filter(|(_, rest)| rest.starts_with(". "));
            if let (Some((rule, _)), Some(section)) = (rule, sections.last_mut()) {
                assert_eq!(rule, section.1 + 1, "{}", section.0);
                section.1 = rule;
            }
        }
        Rules { sections }
    }

    /// What one citation says, where no such section or rule is there: `text` is
    /// what follows `RULES, `, sections with commas between them.
    fn wrong_in(&self, text: &str) -> Option<String> {
        let section = self
            .sections
            .iter()
            .filter(|(name, _)| text.starts_with(name.as_str()))
            .max_by_key(|(name, _)| name.len());
        let Some((name, rules)) = section else {
            return Some(text.chars().take(40).collect());
        };
        let mut rest = &text[name.len()..];
        while let Some(after) = [" and ", " to ", " "]
            .iter()
            .find_map(|between| rest.strip_prefix(between))
        {
            let Some((rule, more)) = number(after) else {
                break;
            };
            if rule == 0 || *rules < rule {
                return Some(format!("{name} {rule}"));
            }
            rest = more;
        }
        let next = rest.strip_prefix(", ")?;
        let is_section = self
            .sections
            .iter()
            .any(|(name, _)| next.starts_with(name.as_str()));
        is_section.then(|| self.wrong_in(next)).flatten()
    }

    /// How many citations a text has, and those that are wrong.
    pub fn check(&self, text: &str) -> (usize, Vec<String>) {
        let cited = text.split("RULES, ").skip(1);
        (
            cited.clone().count(),
            cited.filter_map(|after| self.wrong_in(after)).collect(),
        )
    }
}
