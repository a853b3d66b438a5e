//! Patterns of a small kind: letters, `.`, a `*`, `+` or `?` after one of these, `^` in front and `$` at the end.
//! The hub's own patterns are those of the crate `regex`; the standard library has none, and no measure needs them.

pub struct Pattern {
    parts: Vec<Part>,
    from_start: bool,
    to_end: bool,
}

struct Part {
    /// Any letter where there is none.
    letter: Option<u8>,
    least: usize,
    most: usize,
}

impl Pattern {
    /// The pattern with this text; none where it is of another kind.
    pub fn of(text: &str) -> Option<Pattern> {
        let text = text.as_bytes();
        let (from_start, text) = match text.strip_prefix(b"^") {
            Some(rest) => (true, rest),
            None => (false, text),
        };
        let (to_end, text) = match text.strip_suffix(b"$") {
            Some(rest) => (true, rest),
            None => (false, text),
        };
        let mut parts: Vec<Part> = Vec::new();
        for byte in text {
            match byte {
                b'(' | b')' | b'[' | b']' | b'{' | b'}' | b'|' | b'\\' | b'^' | b'$' => return None,
                b'*' => (parts.last_mut()?.least, parts.last_mut()?.most) = (0, usize::MAX),
                b'+' => parts.last_mut()?.most = usize::MAX,
                b'?' => parts.last_mut()?.least = 0,
                b'.' => parts.push(Part { letter: None, least: 1, most: 1 }),
                letter => parts.push(Part { letter: Some(*letter), least: 1, most: 1 }),
            }
        }
        Some(Pattern { parts, from_start, to_end })
    }

    pub fn is_found_in(&self, letters: &str) -> bool {
        let letters = letters.as_bytes();
        let starts = if self.from_start { 0 } else { letters.len() };
        (0..=starts).any(|start| self.matches_at(&self.parts, &letters[start..]))
    }

    fn matches_at(&self, parts: &[Part], letters: &[u8]) -> bool {
        let Some((part, rest)) = parts.split_first() else {
            return !self.to_end || letters.is_empty();
        };
        let fits = |letter: &&u8| part.letter.is_none_or(|wanted| wanted == **letter);
        let run = letters.iter().take(part.most).take_while(fits).count();
        (part.least..=run).any(|count| self.matches_at(rest, &letters[count..]))
    }
}
