//! The words of an antt text, with their places.

/// A word, from byte `start` to byte `end` of the text.
#[derive(Clone, Copy, Debug)]
pub struct Token<'a> {
    pub text: &'a str,
    pub start: usize,
    pub end: usize,
    /// The column, where the word is the first of its line.
    pub indent: Option<usize>,
}

const SINGLE: &str = "(){};,";

impl Token<'_> {
    /// Whether the word takes a member of what stands before it.
    pub fn is_member(&self) -> bool {
        self.text.len() > 1 && self.text.starts_with('.')
    }
}

/// The names that the definitions give to modules: what follows their point is no member.
const MODULES: [&str; 3] = ["n", "Site", "State"];

/// The words of `text[from..to]`; comments are left out. In `(f s).a.0` the members `.a` and `.0` are words.
pub fn tokens(text: &str, from: usize, to: usize) -> Vec<Token<'_>> {
    let mut found = Vec::new();
    let mut line_start = from;
    for line in text[from..to].split_inclusive('\n') {
        let code = &line[..comment_at(line).unwrap_or(line.len())];
        let first = found.len();
        words(text, line_start, line_start + code.len(), &mut found);
        if let Some(token) = found.get_mut(first) {
            token.indent = Some(token.start - line_start);
        }
        line_start += line.len();
    }
    found
}

fn comment_at(line: &str) -> Option<usize> {
    if line.starts_with("--") {
        return Some(0);
    }
    line.find(" --").map(|at| at + 1)
}

fn words<'a>(text: &'a str, from: usize, to: usize, found: &mut Vec<Token<'a>>) {
    let mut start = None;
    let mut push = |start: usize, end: usize| {
        let mut at = start;
        for place in member_places(&text[start..end]) {
            found.extend(token(text, at, start + place));
            at = start + place;
        }
        found.extend(token(text, at, end));
    };
    for (offset, c) in text[from..to].char_indices() {
        let at = from + offset;
        let single = SINGLE.contains(c);
        if !single && !c.is_whitespace() {
            start = start.or(Some(at));
            continue;
        }
        if let Some(s) = start.take() {
            push(s, at);
        }
        if single {
            push(at, at + 1);
        }
    }
    if let Some(s) = start {
        push(s, to);
    }
}

/// The word from byte `start` to byte `end`, if there is one between.
fn token(text: &str, start: usize, end: usize) -> Option<Token<'_>> {
    (start < end).then(|| Token {
        text: &text[start..end],
        start,
        end,
        indent: None,
    })
}

/// Where the members begin that a word without spaces takes. A module's point begins none, nor does that behind a function's parameter.
fn member_places(word: &str) -> Vec<usize> {
    let points: Vec<usize> = word.match_indices('.').map(|(at, _)| at).collect();
    let first = &word[..points.first().copied().unwrap_or(word.len())];
    if MODULES.contains(&first) || word.ends_with('.') {
        return Vec::new();
    }
    points
}

/// The words with one space between, but before members: what of a text decides.
pub fn plain(text: &str) -> String {
    let mut found = String::new();
    for token in tokens(text, 0, text.len()) {
        if !found.is_empty() && !token.is_member() {
            found.push(' ');
        }
        found.push_str(token.text);
    }
    found
}

/// The place of the bracket that closes the one at `open`.
pub fn closing(ts: &[Token], open: usize) -> Option<usize> {
    let mut depth = 0;
    for (i, t) in ts.iter().enumerate().skip(open) {
        match t.text {
            "(" | "{" => depth += 1,
            ")" | "}" => depth -= 1,
            _ => {}
        }
        if depth == 0 {
            return Some(i);
        }
    }
    None
}

/// One past the argument that starts at `i`: a word, or what stands in brackets, with the members taken of it.
pub fn argument_end(ts: &[Token], i: usize) -> Option<usize> {
    let t = ts.get(i)?;
    let end = match t.text {
        "(" => closing(ts, i)? + 1,
        ")" | "}" | ";" | "," | "=" => return None,
        _ => i + 1,
    };
    let members = ts[end..].iter().take_while(|t| t.is_member());
    Some(end + members.count())
}

/// The text from token `from` up to token `to`, not with it.
pub fn source<'a>(text: &'a str, ts: &[Token], from: usize, to: usize) -> &'a str {
    &text[ts[from].start..ts[to - 1].end]
}

#[cfg(test)]
mod tests {
    use super::*;

    #[test]
    fn words_brackets_and_comments() {
        let text = "  a = f b.c (λ s. (g s).d.0) -- why\n    && n.d;\n";
        let ts = tokens(text, 0, text.len());
        let words: Vec<&str> = ts.iter().map(|t| t.text).collect();
        assert_eq!(
            words,
            [
                "a", "=", "f", "b", ".c", "(", "λ", "s.", "(", "g", "s", ")", ".d", ".0", ")",
                "&&", "n.d", ";"
            ]
        );
        assert_eq!(ts[0].indent, Some(2));
        assert_eq!(ts[1].indent, None);
        assert_eq!(closing(&ts, 5), Some(14));
        assert_eq!(argument_end(&ts, 3), Some(5));
        assert_eq!(argument_end(&ts, 8), Some(14));
        assert_eq!(plain(" a\n  b(c).d"), "a b ( c ).d");
    }
}
