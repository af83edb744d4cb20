//! Every reader of a record's field stands in three places: in the code, in the definitions that say
//! which bytes it reads, and in docs/PROMISES.md. What is proved for all fields together is proved of
//! the readers that the definitions list; that they leave out none is asserted here.

use std::collections::BTreeMap;
use std::fs;
use std::path::Path;

const DOCUMENT: &str = "docs/PROMISES.md";
const DEFINITIONS: &str = "crates/model/specs/InPlace.antt";
const LAYOUT: &str = "crates/model/src/layout.rt";
const STRUCTS: &str = "crates/model/src/lib.rt";

/// The head of the document's table.
const HEAD: &str = "| Reader | Offset | Width | Definition |\n";

/// The modules of crates/records that read fields.
const MODULES: [&str; 3] = ["site", "state", "entry"];

/// What reads a part at an offset that it is given, with the number of its bytes. `number_at`, of the
/// trait `Part`, reads a number of the type that is wanted of it.
const PRIMITIVES: [(&str, usize); 5] = [
    ("reference_at", 4),
    ("eight", 8),
    ("u8::get", 1),
    ("u16::get", 2),
    ("u32::get", 4),
];
const GENERIC: &str = "number_at";

/// Types of numbers, with the number of their bytes.
const NUMBERS: [(&str, usize); 3] = [("u8", 1), ("u16", 2), ("u32", 4)];

/// The parameters of a reader: the part, and nothing else. A record, or none, is of a type `P: Part`.
const PARTS: [&str; 2] = ["part: P", "part: &[u8; ENTRY_SIZE]"];

/// What a struct is read by: the function of this name of an impl of this trait.
const TRAIT: &str = "impl FromPart for ";
const READ_BY: &str = "    fn from_part<P: Part>(part: P) -> ";

/// Fewer would mean that the files are read wrongly.
const FEWEST: usize = 70;

/// An offset and a width; none where a reader is told them.
type Place = Option<(usize, usize)>;

/// Readers by their names.
type Readers = BTreeMap<String, Place>;

/// The offsets of the layout by their names.
type Layout = BTreeMap<String, usize>;

/// The types of members, by `Struct.member`.
type Types = BTreeMap<String, String>;

fn text_of(path: &str) -> String {
    let root = Path::new(env!("CARGO_MANIFEST_DIR")).join("../..");
    fs::read_to_string(root.join(path)).unwrap_or_else(|error| panic!("{path}: {error}"))
}

fn add<T>(rows: &mut BTreeMap<String, T>, name: String, row: T) {
    let held = rows.insert(name.clone(), row);
    assert!(held.is_none(), "{name} stands twice");
}

// ── the code

struct Function<'a> {
    name: &'a str,
    bounds: &'a str,
    parameters: &'a str,
    result: &'a str,
    body: &'a str,
}

/// The text before and after the first place of what stands between them.
fn split<'a>(text: &'a str, at: &str) -> (&'a str, &'a str) {
    text.split_once(at)
        .unwrap_or_else(|| panic!("no {at:?} in {text}"))
}

/// The impls of a code, each from its first word to its last line, and what stands around them.
fn impls(code: &str) -> (Vec<&str>, String) {
    let mut blocks = Vec::new();
    let mut around = String::new();
    let mut rest = code;
    while let Some((before, after)) = rest.split_once("\nimpl") {
        let (block, after) = split(after, "\n}\n");
        blocks.push(block);
        around.push_str(before);
        around.push('\n');
        rest = after;
    }
    around.push_str(rest);
    (blocks, around)
}

/// The reader of a whole struct, under the name of its definition, if an impl is one's. In another
/// impl there is none.
fn struct_reader(block: &str) -> Option<Function<'_>> {
    let whole = format!("impl{block}");
    if !whole.starts_with(TRAIT) {
        assert!(!block.contains("part: "), "a reader in {block}");
        return None;
    }
    let (_, rest) = split(block, "ghost of_part = { ");
    let (name, rest) = split(rest, " };");
    let (_, rest) = split(rest, READ_BY);
    let (result, rest) = split(rest, " {\n");
    let (body, rest) = split(rest, "\n    }");
    assert!(!rest.contains("part: "), "another reader in {block}");
    Some(Function {
        name,
        bounds: "",
        parameters: PARTS[0],
        result,
        body,
    })
}

/// The functions outside impls.
fn functions(code: &str) -> Vec<Function<'_>> {
    let texts = code.split("fn ").skip(1);
    texts
        .map(|text| {
            let (name, rest) = split(text, "(");
            let (name, bounds) = name.split_once('<').unwrap_or((name, ""));
            let (parameters, rest) = split(rest, ")");
            let (head, rest) = split(rest, "\n{\n");
            let (body, _) = split(rest, "\n}");
            let result = head.trim_start().strip_prefix("-> ").unwrap_or_default();
            let result = result.lines().next().unwrap_or_default();
            Function {
                name,
                bounds,
                parameters,
                result,
                body,
            }
        })
        .collect()
}

fn width_of(primitive: &str) -> Option<usize> {
    let found = PRIMITIVES.iter().find(|(name, _)| *name == primitive);
    found.map(|&(_, width)| width)
}

/// Whether a function is a reader. A writer is not; what is lent a part and more is a primitive, and
/// it alone takes bytes out of the part, so that no field is read where this test does not look.
fn is_reader(function: &Function) -> bool {
    let name = function.name;
    if PARTS.contains(&function.parameters) {
        assert!(!function.body.contains("part["), "{name} takes bytes");
        return true;
    }
    let reads = function.bounds.contains("Part")
        || function.parameters.contains("&[u8")
        || function.parameters.contains("&Record");
    let is_known = !reads || width_of(name).is_some();
    assert!(is_known, "{name} is no known primitive");
    false
}

/// The name of the function that is called where the text ends, with its path.
fn called(text: &str) -> &str {
    let is_of_name = |c: char| c.is_alphanumeric() || c == '_' || c == ':';
    text.rsplit(|c| !is_of_name(c)).next().unwrap_or(text)
}

/// The width of a number that is read by the type that is wanted: the expression is no more than the
/// reading, so that its type is the one wanted.
fn width_by_type(expression: &str, wanted: &str) -> usize {
    let call = expression.trim();
    let is_bare = call.starts_with(&format!("part.{GENERIC}("))
        && call.ends_with(')')
        && call.matches('(').count() == 1;
    assert!(is_bare, "of what type: {expression}");
    let found = NUMBERS.iter().find(|(number, _)| *number == wanted);
    found.unwrap_or_else(|| panic!("{wanted} is no number")).1
}

/// The primitive that an expression calls, and the text after the part: `part.number_at(offset)` or
/// `flag_of(part, flag)`.
fn primitive_call(expression: &str) -> Option<(&str, &str)> {
    if let Some((_, call)) = expression.split_once("part.") {
        return call.split_once('(');
    }
    let (before, after) = expression.split_once("(part, ")?;
    Some((called(before), after))
}

/// The place that an expression reads by a primitive, where a value of a type is wanted. A flag is read
/// of the flags' byte.
fn read_by_primitive(expression: &str, wanted: &str, layout: &Layout) -> Place {
    let (primitive, after) = primitive_call(expression)?;
    assert!(!after.contains("part"), "read twice: {expression}");
    if primitive == "flag_of" {
        return Some((layout["FLAGS"], 1));
    }
    let name = after.split_once(')').and_then(|(offset, _)| {
        let name = offset.strip_prefix("layout::")?;
        layout.get(name)
    });
    let offset = name.unwrap_or_else(|| panic!("no offset of the layout: {expression}"));
    let width = if primitive == GENERIC {
        width_by_type(expression, wanted)
    } else {
        width_of(primitive).unwrap_or_else(|| panic!("no primitive: {expression}"))
    };
    Some((*offset, width))
}

/// The place of the reader that an expression calls and makes something of. A call alone only hands
/// on what has its own row.
fn read_by_reader(expression: &str, readers: &Readers) -> Place {
    let (before, after) = expression.split_once("(part)")?;
    if after.is_empty() {
        return None;
    }
    let reader = called(before);
    *readers
        .get(reader)
        .unwrap_or_else(|| panic!("no reader: {expression}"))
}

/// The members of a body's struct with what fills them, for a local that which it is bound to.
fn members(body: &str) -> Vec<(&str, &str)> {
    let lines = body.lines().map(str::trim);
    let locals = lines.clone().filter_map(|line| {
        let binding = line.strip_prefix("let ")?.strip_suffix(';')?;
        binding.split_once(" = ")
    });
    let locals: BTreeMap<&str, &str> = locals.collect();
    let members = lines.filter_map(|line| line.strip_suffix(',')?.split_once(": "));
    members
        .map(|(name, filled)| (name, *locals.get(filled).unwrap_or(&filled)))
        .collect()
}

/// The code with each call of a primitive on one line, also where the layout gives every argument a
/// line of its own.
fn with_whole_calls(code: &str) -> String {
    let mut text = String::new();
    let mut is_within = false;
    for line in code.lines() {
        let line = if is_within { line.trim() } else { line };
        if is_within && line.starts_with(')') {
            text.truncate(text.trim_end_matches([',', ' ']).len());
            is_within = false;
        }
        text.push_str(line);
        is_within |= line.ends_with("_at(");
        let arguments = if line.ends_with(',') { " " } else { "" };
        text.push_str(if is_within { arguments } else { "\n" });
    }
    text
}

/// The functions that read a field by a primitive, and the members of structs that do or that make
/// something of such a function's field.
fn readers_in(code: &str, layout: &Layout, types: &Types) -> Readers {
    let (impls, code) = impls(code);
    let of_structs = impls.into_iter().filter_map(struct_reader);
    let functions = functions(&code).into_iter().chain(of_structs);
    let functions = Vec::from_iter(functions.filter(is_reader));
    let mut readers = Readers::new();
    let is_whole = |function: &&Function| members(function.body).is_empty();
    for function in functions.iter().filter(is_whole) {
        let place = read_by_primitive(function.body, function.result, layout);
        if place.is_some() {
            add(&mut readers, function.name.to_owned(), place);
        }
    }
    let alone = readers.clone();
    for function in &functions {
        for (member, filled) in members(function.body) {
            let wanted = &types[&format!("{}.{member}", function.result)];
            let place = read_by_primitive(filled, wanted, layout);
            let place = place.or_else(|| read_by_reader(filled, &alone));
            if place.is_some() {
                add(&mut readers, format!("{}.{member}", function.name), place);
            }
        }
    }
    readers
}

fn function<'a>(code: &'a str, name: &str) -> Function<'a> {
    let mut functions = functions(code).into_iter();
    functions
        .find(|function| function.name == name)
        .unwrap_or_else(|| panic!("there is no {name}"))
}

/// The two readers that are not of crates/records: a factor's value is compared in its place, and
/// what is to be zero is anywhere.
fn readers_outside(layout: &Layout) -> Readers {
    let lookup = text_of("crates/site/src/lookup.rt");
    let body = function(&lookup, "has_value").body;
    let (_, compared) = body.split_once("same_eight(part, ").expect("a comparison");
    let (offset, _) = compared.split_once(',').expect("its offset");
    let range = text_of("crates/site/src/range.rt");
    let parameters = function(&range, "is_clear").parameters;
    let is_told =
        parameters.starts_with("part: &") && parameters.ends_with(", at: usize, n: usize");
    assert!(is_told, "{parameters}");
    Readers::from([
        ("site::lookup::has_value".into(), Some((layout[offset], 8))),
        ("site::range::is_clear".into(), None),
    ])
}

fn layout() -> Layout {
    let text = text_of(LAYOUT);
    let constants = text.lines().filter_map(|line| {
        let (name, offset) = line.strip_prefix("pub const ")?.split_once(": usize = ")?;
        Some((name.to_owned(), offset.strip_suffix(';')?.parse().ok()?))
    });
    constants.collect()
}

/// The types of the members of the model's structs.
fn types() -> Types {
    let text = text_of(STRUCTS);
    let mut types = Types::new();
    for text in text.split("pub struct ").skip(1) {
        let (head, rest) = split(text, "\n");
        let Some(name) = head.strip_suffix(" {") else {
            continue;
        };
        let (members, _) = split(rest, "}");
        for line in members.lines() {
            let member = line.trim().strip_prefix("pub ").expect("a member");
            let (member, of) = split(member.trim_end_matches(','), ": ");
            add(&mut types, format!("{name}.{member}"), of.to_owned());
        }
    }
    types
}

fn code() -> Readers {
    let layout = layout();
    let types = types();
    let mut readers = readers_outside(&layout);
    for module in MODULES {
        let code = with_whole_calls(&text_of(&format!("crates/records/src/{module}.rt")));
        for (name, place) in readers_in(&code, &layout, &types) {
            add(&mut readers, format!("{module}::{name}"), place);
        }
    }
    readers
}

// ── the definitions and the document

/// What stands of a reader beside its name. In the document there is no size.
struct Row {
    size: Option<usize>,
    place: Place,
    definition: String,
}

fn place_of(offset: &str, width: &str) -> Place {
    Some((offset.parse().ok()?, width.parse().ok()?))
}

/// What stands between the bracket that a text begins with and the one that closes it.
fn inside(text: &str) -> Option<&str> {
    let mut depth = 0;
    for (at, c) in text.char_indices() {
        match c {
            '(' => depth += 1,
            ')' => depth -= 1,
            _ => {}
        }
        if depth == 0 {
            return text[..at].strip_prefix('(');
        }
    }
    None
}

/// `(λ s. (zone_of s).upper_limit) number_in` begins with `zone_of .upper_limit`, `Site.kind number_in`
/// with `Site.kind`.
fn definition_at_start(text: &str) -> String {
    let Some(inside) = inside(text) else {
        return text.split(' ').next().unwrap_or(text).to_owned();
    };
    let Some(function) = inside.strip_prefix("λ ") else {
        return inside.to_owned();
    };
    let (variable, value) = function.split_once(". ").expect("a function's value");
    let (made, member) = value.split_once(").").expect("a member");
    let argument = format!(" {variable}");
    let definition = made
        .strip_prefix('(')
        .and_then(|made| made.strip_suffix(&argument))
        .expect("a definition of the variable");
    format!("{definition} .{member}")
}

fn row_of_definition(text: &str) -> Row {
    let (_, text) = text.split_once("Reads ").expect("a reader");
    let words = Vec::from_iter(text.splitn(4, ' '));
    let [size, offset, width, rest] = words[..].try_into().expect("what it reads");
    let size = match size {
        "record_size" => 32,
        "entry_size" => 24,
        _ => panic!("{size} is no size of a part"),
    };
    Row {
        size: Some(size),
        place: place_of(offset, width),
        definition: definition_at_start(rest),
    }
}

/// The rows of the definitions, whose records are named for the modules.
fn definitions() -> BTreeMap<String, Row> {
    let text = text_of(DEFINITIONS);
    let mut rows = BTreeMap::new();
    let mut module = String::new();
    for line in text.lines() {
        if let Some(record) = line.strip_prefix("pub record ") {
            let (name, _) = record.split_once("Readers").expect("a record of readers");
            module = name.to_lowercase();
        } else if let Some(member) = line.strip_prefix("  pub ") {
            let (name, text) = member.split_once(" : ").expect("a reader");
            let row = row_of_definition(text);
            add(&mut rows, format!("{module}::{name}"), row);
        }
    }
    rows
}

/// The name of a reader in the definitions: `site::point_of_muster` is `site::point_of.muster`.
fn defined_name(name: &str) -> String {
    let (module, rest) = name.split_once("::").expect("a module");
    let last = rest.rsplit("::").next().unwrap_or(rest);
    format!("{module}::{}", last.replace('.', "_"))
}

fn document() -> BTreeMap<String, Row> {
    let text = text_of(DOCUMENT);
    let (_, table) = text.split_once(HEAD).expect("the table of readers");
    let lines = table.lines().take_while(|line| line.starts_with('|'));
    let mut rows = BTreeMap::new();
    for line in lines.skip(1) {
        let cells = line.trim_matches('|').split('|');
        let cells = Vec::from_iter(cells.map(|cell| cell.trim().trim_matches('`')));
        let [name, offset, width, definition] = cells[..].try_into().expect("four cells");
        let row = Row {
            size: None,
            place: place_of(offset, width),
            definition: definition.to_owned(),
        };
        add(&mut rows, name.to_owned(), row);
    }
    rows
}

// ── the three together

fn readers_of(rows: &BTreeMap<String, Row>) -> Readers {
    let readers = rows.iter();
    readers
        .map(|(name, row)| (name.clone(), row.place))
        .collect()
}

/// What one of two places has, by name, offset and width, and the other lacks.
fn differences(one: (&str, &Readers), other: (&str, &Readers)) -> Vec<String> {
    let mut found = Vec::new();
    for ((has, these), (lacks, those)) in [(one, other), (other, one)] {
        let lacking = these
            .iter()
            .filter(|(name, place)| those.get(*name) != Some(place));
        found.extend(lacking.map(|(name, place)| match place {
            Some((offset, width)) => format!("{name}, {offset}, {width}: in {has}, not in {lacks}"),
            None => format!("{name}, any: in {has}, not in {lacks}"),
        }));
    }
    found
}

#[test]
fn code_definitions_and_document_have_the_same_readers() {
    let code = code();
    let mut by_defined_name = Readers::new();
    for (name, place) in &code {
        add(&mut by_defined_name, defined_name(name), *place);
    }
    let documented = readers_of(&document());
    let defined = readers_of(&definitions());
    let mut found = differences(("the code", &code), (DOCUMENT, &documented));
    let own = ("the code", &by_defined_name);
    found.extend(differences(own, (DEFINITIONS, &defined)));
    assert!(found.is_empty(), "{found:#?}");
    assert!(code.len() >= FEWEST, "only {} readers", code.len());
}

/// Entries have 24 bytes, records of a site or a state 32.
#[test]
fn every_reader_stays_within_its_part() {
    for (name, row) in definitions() {
        let size = if name.starts_with("entry::") { 24 } else { 32 };
        assert_eq!(row.size, Some(size), "{name}");
        if let Some((offset, width)) = row.place {
            assert!(offset + width <= size, "{name}: {offset}, {width}");
        }
    }
}

#[test]
fn the_document_names_the_definition_that_each_reader_reads() {
    let definitions = definitions();
    for (name, row) in document() {
        let defined = definitions.get(&defined_name(&name));
        let defined = defined.unwrap_or_else(|| panic!("{name} is not defined"));
        assert_eq!(row.definition, defined.definition, "{name}");
    }
}
