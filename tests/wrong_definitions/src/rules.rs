//! The rules that make wrong definitions, each a change in one place.

use crate::definitions::{Clause, Definition, File};
use crate::names::Names;
use crate::tokens::{argument_end, closing, source, Token};
use std::collections::BTreeMap;

/// The bytes from `start` to `end` of a file made `text`.
#[derive(Clone, Debug, PartialEq)]
pub struct Change {
    pub start: usize,
    pub end: usize,
    pub text: String,
}

struct Body<'a> {
    file: &'a File,
    definition: &'a Definition,
    names: &'a Names,
    ts: &'a [Token<'a>],
    parameters: BTreeMap<String, String>,
}

/// Every change of a definition.
pub fn changes(file: &File, definition: &Definition, names: &Names) -> Vec<Change> {
    let clauses = definition.clauses(&file.text);
    let mut found = Vec::new();
    for pair in clauses.windows(2) {
        swapped_results(&file.text, &pair[0], &pair[1], &mut found);
    }
    for clause in clauses.iter().filter(|c| !c.body.is_empty()) {
        let parameters = clause.parameters(&definition.types());
        let body = Body {
            file,
            definition,
            names,
            ts: &clause.body,
            parameters,
        };
        for i in 0..body.ts.len() {
            numbers(&body, i, &mut found);
            comparisons(&body, i, &mut found);
            connectives(&body, i, &mut found);
            branches(&body, i, &mut found);
            operators(&body, i, &mut found);
            other_names(&body, i, &mut found);
            other_parameters(&body, i, &mut found);
            filled_fields(&body, i, &mut found);
        }
    }
    found.dedup();
    found
}

impl<'a> Body<'a> {
    fn word(&self, i: usize) -> &'a str {
        self.ts.get(i).map_or("", |t| t.text)
    }

    fn before(&self, i: usize) -> &'a str {
        if i == 0 {
            ""
        } else {
            self.word(i - 1)
        }
    }

    /// Tokens `from` up to `to` made `text`.
    fn change(&self, from: usize, to: usize, text: String, found: &mut Vec<Change>) {
        let (start, end) = (self.ts[from].start, self.ts[to - 1].end);
        if self.file.text[start..end] != text {
            found.push(Change { start, end, text });
        }
    }

    fn source(&self, from: usize, to: usize) -> &'a str {
        source(&self.file.text, self.ts, from, to)
    }

    /// The first place from `i` on, at its depth, of a word that ends an operand of `connective`.
    fn operand_end(&self, i: usize, connective: &str) -> usize {
        let mut at = i;
        while at < self.ts.len() {
            match self.word(at) {
                "(" | "{" => at = closing(self.ts, at).unwrap_or(self.ts.len() - 1),
                "&&" if connective == "||" => {}
                ")" | "}" | ";" | "," | "&&" | "||" | "then" | "else" | "∷" | "++" => return at,
                _ => {}
            }
            at += 1;
        }
        at
    }

    /// The place where the operand that ends before `i` starts.
    fn operand_start(&self, i: usize, connective: &str) -> usize {
        let mut depth = 0;
        for at in (0..i).rev() {
            match self.word(at) {
                ")" | "}" => depth += 1,
                "(" | "{" if depth == 0 => return at + 1,
                "(" | "{" => depth -= 1,
                "&&" if depth == 0 && connective == "||" => {}
                ";" | "&&" | "||" | "then" | "else" | "if" | "=" if depth == 0 => return at + 1,
                w if w.ends_with('.') && depth == 0 => return at + 1,
                _ => {}
            }
        }
        0
    }
}

/// The results of two neighbouring clauses swapped, where they use no name that the other does not bind.
fn swapped_results(text: &str, a: &Clause, b: &Clause, found: &mut Vec<Change>) {
    if a.body.is_empty() || b.body.is_empty() {
        return;
    }
    let uses = |body: &[Token], head: &[Token], other: &[Token]| {
        let bound = |h: &[Token], w: &str| h.iter().skip(1).any(|t| t.text == w);
        body.iter()
            .all(|t| !bound(head, t.text) || bound(other, t.text))
    };
    if !uses(&a.body, &a.head, &b.head) || !uses(&b.body, &b.head, &a.head) {
        return;
    }
    let first = source(text, &a.body, 0, a.body.len());
    let second = source(text, &b.body, 0, b.body.len());
    if first == second {
        return;
    }
    let (start, end) = (a.body[0].start, b.body[b.body.len() - 1].end);
    let between = &text[a.body[a.body.len() - 1].end..b.body[0].start];
    found.push(Change {
        start,
        end,
        text: format!("{second}{between}{first}"),
    });
}

/// A number and its neighbours.
fn numbers(b: &Body, i: usize, found: &mut Vec<Change>) {
    let is_label = b.word(i + 1) == "=" || b.before(i) == "Type";
    let Some(n) = b.word(i).parse::<u64>().ok().filter(|_| !is_label) else {
        return;
    };
    b.change(i, i + 1, (n + 1).to_string(), found);
    if n > 0 {
        b.change(i, i + 1, (n - 1).to_string(), found);
    }
}

/// Other comparisons, swapped arguments, the comparison negated. `x ≤ 0` says what `x = 0` says and is not made of it.
fn comparisons(b: &Body, i: usize, found: &mut Vec<Change>) {
    let word = b.word(i);
    if !["leb", "ltb", "eqb"].contains(&word) {
        return;
    }
    let Some(middle) = argument_end(b.ts, i + 1) else {
        return;
    };
    let Some(end) = argument_end(b.ts, middle) else {
        return;
    };
    let (x, y) = (b.source(i + 1, middle), b.source(middle, end));
    if word == "eqb" {
        for (x, y) in [(x, y), (y, x)] {
            if !b.names.is_zero(y) {
                b.change(i, end, format!("leb {x} {y}"), found);
            }
        }
    } else {
        let other = if word == "leb" { "ltb" } else { "leb" };
        b.change(i, i + 1, other.to_string(), found);
        b.change(i, end, format!("{word} {y} {x}"), found);
    }
    let negated = b.before(i) == "(" && i > 1 && b.word(i - 2) == "not";
    if !negated {
        b.change(i, end, format!("(not ({word} {x} {y}))"), found);
    }
}

/// `&&` and `||` for one another, an operand dropped, a `not` dropped, `true` and `false`.
fn connectives(b: &Body, i: usize, found: &mut Vec<Change>) {
    match b.word(i) {
        "true" => b.change(i, i + 1, "false".to_string(), found),
        "false" => b.change(i, i + 1, "true".to_string(), found),
        "not" => b.change(i, i + 2, b.word(i + 1).to_string(), found),
        word @ ("&&" | "||") => {
            let other = if word == "&&" { "||" } else { "&&" };
            b.change(i, i + 1, other.to_string(), found);
            let (start, end) = (b.operand_start(i, word), b.operand_end(i + 1, word));
            b.change(start, end, b.source(i + 1, end).to_string(), found);
            b.change(start, end, b.source(start, i).to_string(), found);
        }
        _ => {}
    }
}

/// The places of an `if`: its `then`, its `else`, its end.
fn conditional(b: &Body, i: usize) -> Option<(usize, usize, usize)> {
    let then = matching(b, i + 1, "then")?;
    let other = matching(b, then + 1, "else")?;
    let mut end = other + 1;
    while end < b.ts.len() && ![")", "}", ";"].contains(&b.word(end)) {
        end = argument_end(b.ts, end).unwrap_or(end + 1);
    }
    Some((then, other, end))
}

/// The first `word` from `i` on that belongs to no inner `if`.
fn matching(b: &Body, i: usize, word: &str) -> Option<usize> {
    let mut open = 0;
    let mut at = i;
    while at < b.ts.len() {
        match b.word(at) {
            "(" | "{" => at = closing(b.ts, at)?,
            ")" | "}" => return None,
            "if" => open += 1,
            w if w == word && open == 0 => return Some(at),
            "else" if open > 0 => open -= 1,
            _ => {}
        }
        at += 1;
    }
    None
}

/// Branches swapped, one branch alone, and two neighbours of a chain swapped.
fn branches(b: &Body, i: usize, found: &mut Vec<Change>) {
    if b.word(i) != "if" {
        return;
    }
    let Some((then, other, end)) = conditional(b, i) else {
        return;
    };
    let condition = b.source(i + 1, then);
    let (yes, no) = (b.source(then + 1, other), b.source(other + 1, end));
    b.change(
        i,
        end,
        format!("if {condition} then ({no}) else ({yes})"),
        found,
    );
    b.change(i, end, format!("({yes})"), found);
    b.change(i, end, format!("({no})"), found);
    if b.word(other + 1) != "if" {
        return;
    }
    let Some((next_then, next_else, _)) = conditional(b, other + 1) else {
        return;
    };
    let second = b.source(other + 2, next_then);
    let value = b.source(next_then + 1, next_else);
    let swapped = format!("if {second} then {value} else if {condition} then {yes}");
    b.change(i, next_else, swapped, found);
}

/// Other operators of arithmetic; `take` and `drop`, `any` and `all`.
fn operators(b: &Body, i: usize, found: &mut Vec<Change>) {
    let others: &[&str] = match b.word(i) {
        "+" => &["-", "*"],
        "-" => &["+"],
        "*" => &["+"],
        "/" => &["%"],
        "%" => &["/"],
        "^" => &["*"],
        "take" => &["drop"],
        "drop" => &["take"],
        "any" => &["all"],
        "all" => &["any"],
        _ => &[],
    };
    for other in others {
        b.change(i, i + 1, other.to_string(), found);
    }
}

/// Another field, constant, variant or definition.
fn other_names(b: &Body, i: usize, found: &mut Vec<Change>) {
    let word = b.word(i);
    if let Some(field) = word.strip_prefix('.') {
        return other_field(b, i, field, found);
    }
    if b.word(i + 1) == "=" || b.word(i + 1) == ":" || b.parameters.contains_key(word) {
        return;
    }
    let (prefix, name) = word
        .strip_prefix("n.")
        .map_or(("", word), |rest| ("n.", rest));
    if let Some(other) = b.names.constant(name) {
        b.change(i, i + 1, format!("{prefix}{other}"), found);
    }
    if let Some(other) = b.names.variant(word) {
        b.change(i, i + 1, other.clone(), found);
    }
    if let Some(other) = b.names.definition(&b.file.name, word) {
        if *other != b.definition.name {
            b.change(i, i + 1, other.clone(), found);
        }
    }
}

fn other_field(b: &Body, i: usize, field: &str, found: &mut Vec<Change>) {
    if field == "0" || field == "1" {
        let is_id = b
            .parameters
            .get(b.before(i))
            .is_some_and(|t| t.ends_with("Id"));
        if !is_id && !b.before(i).starts_with('.') {
            b.change(
                i,
                i + 1,
                (if field == "0" { ".1" } else { ".0" }).to_string(),
                found,
            );
        }
        return;
    }
    for sibling in b.names.siblings(field) {
        b.change(i, i + 1, format!(".{sibling}"), found);
    }
}

/// Another parameter of the same type; two neighbouring ones swapped.
fn other_parameters(b: &Body, i: usize, found: &mut Vec<Change>) {
    let word = b.word(i);
    let Some(kind) = b.parameters.get(word) else {
        return;
    };
    if b.word(i + 1) == "=" {
        return;
    }
    let after = b.parameters.iter().skip_while(|(n, _)| *n != word).skip(1);
    let others = after
        .chain(b.parameters.iter())
        .find(|(n, k)| *k == kind && *n != word);
    if let Some((other, _)) = others {
        b.change(i, i + 1, other.clone(), found);
    }
    let next = b.word(i + 1);
    if next != word && b.parameters.get(next) == Some(kind) {
        b.change(i, i + 2, format!("{next} {word}"), found);
    }
}

/// The values of two fields of one type, one after the other in a record, swapped.
fn filled_fields(b: &Body, i: usize, found: &mut Vec<Change>) {
    if b.word(i + 1) != "=" || !["{", ";"].contains(&b.before(i)) {
        return;
    }
    let end = field_end(b, i + 2);
    let mut next = end + 1;
    while b.word(next + 1) == "=" {
        let next_end = field_end(b, next + 2);
        let siblings = b.names.siblings(b.word(i));
        if siblings.iter().any(|sibling| sibling == b.word(next)) {
            let (first, second) = (b.source(i + 2, end), b.source(next + 2, next_end));
            let between = b.source(end, next + 2);
            b.change(i + 2, next_end, format!("{second}{between} {first}"), found);
            return;
        }
        next = next_end + 1;
    }
}

fn field_end(b: &Body, i: usize) -> usize {
    let mut at = i;
    while at < b.ts.len() && ![";", "}"].contains(&b.word(at)) {
        at = argument_end(b.ts, at).unwrap_or(at + 1);
    }
    at
}

#[cfg(test)]
mod tests {
    use super::*;

    /// The bodies that the rules make of one.
    fn made(body: &str) -> Vec<String> {
        let text = format!("unfoldable pub f : ℕ → ℕ → Bool\nf a b =\n    {body}\n");
        let file = File::new("F.antt", text);
        let names = Names::new(
            &[],
            "pub struct S {\n    pub u: u8,\n    pub v_w: u16,\n}\n",
        );
        let made = changes(&file, &file.definitions[0], &names);
        let whole =
            |c: &Change| format!("{}{}{}", &file.text[..c.start], c.text, &file.text[c.end..]);
        let body_of = |t: String| t.split_once("=\n    ").unwrap().1.trim_end().to_string();
        made.iter().map(|c| body_of(whole(c))).collect()
    }

    fn makes(body: &str, wrong: &str) {
        let all = made(body);
        assert!(all.iter().any(|m| m == wrong), "{wrong} is not in {all:#?}");
    }

    #[test]
    fn comparisons_and_numbers() {
        makes("leb (g a) 7", "ltb (g a) 7");
        makes("leb (g a) 7", "leb 7 (g a)");
        makes("leb (g a) 7", "leb (g a) 8");
        makes("leb (g a) 7", "leb (g b) 7");
        assert!(!made("eqb a 0").contains(&"leb a 0".to_string()));
        makes("eqb a 0", "leb 0 a");
    }

    #[test]
    fn operands() {
        makes("g a && h 1 && not (k b)", "h 1 && not (k b)");
        makes("g a && h 1 && not (k b)", "g a && not (k b)");
        makes("g a && h 1 && not (k b)", "g a && h 1");
        makes("g a && h 1 && not (k b)", "g a && h 1 && (k b)");
        makes("g (a && b) || h 1", "g (a) || h 1");
    }

    #[test]
    fn chains() {
        let chain = "if a then x else\n    if b then y else\n    z";
        makes(chain, "if b then y else if a then x else\n    z");
        makes(chain, "(if b then y else\n    z)");
        makes(chain, "if a then x else\n    if b then (z) else (y)");
    }

    #[test]
    fn fields() {
        makes("g s.u s.v_w", "g s.v_w s.v_w");
        makes("leb (h s).u a.v_w", "leb a.v_w (h s).u");
        makes(
            "record { u = h (1); v_w = k; }",
            "record { u = k; v_w = h (1); }",
        );
        makes("p.0", "p.1");
    }

    #[test]
    fn results_of_clauses() {
        let text = "abbrev pub g : T → ℕ → ℕ\ng X a = a\ng Y a = 3\n".to_string();
        let file = File::new("F.antt", text);
        let found = changes(&file, &file.definitions[0], &Names::default());
        assert_eq!(found[0].text, "3\ng Y a = a");
    }
}
