//! A changed definition can use a name that its file does not bring in: the working copy's file is given it.

use crate::names::Names;
use crate::subject::Subject;
use crate::tokens::tokens;

/// What the definitions have of the library.
const PRELUDE: &str = "Rattle.std.specs.Prelude";

/// The text of a subject's file with the names of a change brought in.
pub fn with_imports(text: &str, change: &str, subject: Subject, names: &Names) -> String {
    let mut text = text.to_string();
    for token in tokens(change, 0, change.len()) {
        if let Some((module, name)) = home(token.text, subject, names) {
            bring_in(&mut text, &module, &name);
        }
    }
    text
}

fn home(word: &str, subject: Subject, names: &Names) -> Option<(String, String)> {
    let found = |module: &str, name: &str| Some((module.to_string(), name.to_string()));
    match word {
        "+" | "-" | "*" | "/" | "%" | "^" | "&&" | "||" => found(PRELUDE, &format!("◌{word}◌")),
        "leb" | "ltb" | "eqb" | "not" | "true" | "false" | "take" | "drop" => found(PRELUDE, word),
        "any" | "all" => found(&subject.module("model", "Words"), word),
        _ if names.constant(word).is_some() => found(&subject.module("model", "Numbers"), word),
        _ => {
            let module = format!("declared.{}.TheVariants", names.enum_of(word)?);
            found(&subject.module(subject.name(), &module), word)
        }
    }
}

fn bring_in(text: &mut String, module: &str, name: &str) {
    let start = format!("use {module}.{{");
    let own = text.contains(&format!("abbrev pub {name} "));
    let Some(at) = text.find(&start) else {
        if !own {
            let first = text.find("use ").unwrap_or(0);
            text.insert_str(first, &format!("{start}{name}}}\n"));
        }
        return;
    };
    let list = at + start.len();
    let end = list + text[list..].find('}').unwrap_or(0);
    if !own && !text[list..end].split(", ").any(|n| n == name) {
        text.insert_str(list, &format!("{name}, "));
    }
}

#[cfg(test)]
mod tests {
    use super::*;

    fn brought_in(text: &str, change: &str, names: &Names) -> String {
        with_imports(text, change, Subject::Wiegand, names)
    }

    #[test]
    fn a_name_is_brought_in_once() {
        let text = "-- why\nuse Rattle.std.specs.Prelude.{eqb}\n";
        let once = brought_in(text, "leb a (b + eqb)", &Names::default());
        assert_eq!(
            once,
            "-- why\nuse Rattle.std.specs.Prelude.{◌+◌, leb, eqb}\n"
        );
        assert_eq!(brought_in(&once, "leb", &Names::default()), once);
    }

    #[test]
    fn a_variant_is_of_the_crate_that_is_checked() {
        let names = Names::new(&[], "pub enum E {\n    X,\n    Y,\n}\n");
        let module = "Rattle.wiegand.specs.declared.E.TheVariants";
        assert_eq!(brought_in("", "X", &names), format!("use {module}.{{X}}\n"));
    }
}
