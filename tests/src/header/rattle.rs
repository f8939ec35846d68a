//! The items that the library's source exports, in C's terms. What has no such form is an error and never left out.

use super::item::{Item, What};
use super::tokens::{cut, split, start, tokens};

/// The structs that cross, as C names them. (A step is `stepped` in C: `step` is the function that makes it.)
const STRUCTS: [(&str, &str); 14] = [
    ("Numbers", "qalithonda_numbers"),
    ("HostPage", "qalithonda_page"),
    ("HostEdited", "qalithonda_edited"),
    ("HostAsked", "qalithonda_asked"),
    ("HostBench", "qalithonda_bench"),
    ("HostBenches", "qalithonda_benches"),
    ("HostBenchesEdited", "qalithonda_benches_edited"),
    ("HostCompared", "qalithonda_compared"),
    ("HostUtf7Cursor", "qalithonda_utf7_cursor"),
    ("HostUtf7Step", "qalithonda_utf7_stepped"),
    ("HostJp2Cursor", "qalithonda_jp2_cursor"),
    ("HostJp2Step", "qalithonda_jp2_stepped"),
    ("HostMailboxCursor", "qalithonda_mailbox_cursor"),
    ("HostMailboxStep", "qalithonda_mailbox_stepped"),
];

/// The numbers that cross, as C names them.
const NUMBERS: [(&str, &str); 4] = [("u8", "uint8_t"), ("u16", "uint16_t"), ("u32", "uint32_t"), ("usize", "size_t")];

/// Parameters that C names otherwise. (`page` and `benches` are crates in the source.)
const RENAMED: [(&str, &str); 2] = [("p", "page"), ("b", "benches")];

/// The exported functions, the structs that cross, and the numbers of refusals, kinds, the limit and no mark, in one
/// file.
pub fn items(source: &str) -> Result<Vec<Item>, String> {
    let tokens = tokens(source);
    let mut found = Vec::new();
    for place in 0..tokens.len() {
        match &tokens[place..] {
            ["#", "[", "unsafe", "(", "no_mangle", ")", "]", item @ ..] => found.push(function(item)?),
            ["#", "[", "repr", "(", "C", ")", "]", item @ ..] => found.push(structure(without_derives(item))?),
            ["Refusal" | "Kind", ":", ":", name, "=", ">", number, ..] => found.push(constant(name, number)?),
            ["Accepted" | "Ok", "(", "_", ")", "=", ">", number, ..] => found.push(constant("Accepted", number)?),
            ["const", "LIMIT", ":", "usize", "=", number, ..] => found.push(constant("Limit", number)?),
            ["const", "NEVER", ":", "usize", "=", number, ..] => found.push(never(number)?),
            _ => {}
        }
    }
    Ok(found)
}

fn function(item: &[&str]) -> Result<Item, String> {
    let ["pub", "extern", "\"C\"", "fn", name, "(", rest @ ..] = item else {
        return Err(format!("no function at `{}`", start(item)));
    };
    let (parameters, behind) = cut(rest, ")")?;
    let ["-", ">", result, "ensures" | "{", ..] = behind else {
        return Err(format!("{name}: no plain result at `{}`", start(behind)));
    };
    let mut parts = vec![plain(result)?];
    for parameter in split(parameters, ",") {
        parts.extend(crossed(parameter).map_err(|problem| format!("{name}: {problem}"))?);
    }
    Ok(Item { name: name.to_string(), what: What::Function, parts })
}

/// An item without the line of derives in front of it.
fn without_derives<'a, 't>(item: &'t [&'a str]) -> &'t [&'a str] {
    match item {
        ["#", "[", "derive", "(", "Clone", ",", "Copy", ")", "]", rest @ ..] => rest,
        _ => item,
    }
}

fn structure(item: &[&str]) -> Result<Item, String> {
    let ["pub", "struct", name, "{", rest @ ..] = item else {
        return Err(format!("no struct at `{}`", start(item)));
    };
    let mut parts = Vec::new();
    for field in split(cut(rest, "}")?.0, ",") {
        match field {
            ["pub", field, ":", ty] => parts.push(format!("{} {field}", plain(ty)?)),
            _ => return Err(format!("{name}: cannot read `{}`", start(field))),
        }
    }
    Ok(Item { name: plain(name)?, what: What::Struct, parts })
}

/// A number or struct that crosses by value.
fn plain(ty: &str) -> Result<String, String> {
    let known = NUMBERS.iter().chain(&STRUCTS).find(|(name, _)| *name == ty);
    known.map(|(_, in_c)| in_c.to_string()).ok_or_else(|| format!("`{ty}` has no name in C"))
}

/// A parameter as it crosses: a slice is a pointer and a length.
fn crossed(parameter: &[&str]) -> Result<Vec<String>, String> {
    let [name, ":", ty @ ..] = parameter else {
        return Err(format!("cannot read `{}`", start(parameter)));
    };
    let name = RENAMED.iter().find(|(own, _)| own == name).map_or(*name, |(_, in_c)| in_c);
    let (qualifier, pointed) = match ty {
        ["&", "mut", pointed @ ..] => ("", pointed),
        ["&", pointed @ ..] => ("const ", pointed),
        [ty] => return Ok(vec![format!("{} {name}", plain(ty)?)]),
        _ => return Err(format!("`{}` has no form in C", start(ty))),
    };
    match pointed {
        ["[", ty, "]"] => Ok(vec![format!("{qualifier}{} *{name}", plain(ty)?), format!("size_t {name}_len")]),
        ["[", ty, ";", length, "]"] => Ok(vec![format!("{qualifier}{} {name}[{length}]", plain(ty)?)]),
        _ => Err(format!("`{}` has no form in C", start(ty))),
    }
}

/// `HighByte` is QALITHONDA_HIGH_BYTE.
fn constant(name: &str, number: &str) -> Result<Item, String> {
    let number: u32 = number.parse().map_err(|_| format!("{name}: `{number}` is not a number"))?;
    let mut in_c = "QALITHONDA".to_string();
    for letter in name.chars() {
        if letter.is_ascii_uppercase() {
            in_c.push('_');
        }
        in_c.push(letter.to_ascii_uppercase());
    }
    Ok(Item { name: in_c, what: What::Constant, parts: vec![number.to_string()] })
}

/// The number of no mark: the greatest size, which is SIZE_MAX in C.
fn never(number: &str) -> Result<Item, String> {
    if number != usize::MAX.to_string() {
        return Err(format!("NEVER: `{number}` is not the greatest size"));
    }
    let name = "QALITHONDA_NEVER_SAVED".to_string();
    Ok(Item { name, what: What::Constant, parts: vec!["SIZE_MAX".to_string()] })
}

#[cfg(test)]
mod tests {
    use super::*;

    /// The items as one line each.
    fn read(source: &str) -> Vec<String> {
        let items = items(source).expect("a source that can be read").into_iter();
        items.map(|item| format!("{} {}: {}", item.what.name(), item.name, item.parts.join(", "))).collect()
    }

    #[test]
    fn functions() {
        let source =
            "#[unsafe(no_mangle)]\npub extern \"C\" fn f(text: &[u8], cells: &mut [u32]) -> Numbers\n  ensures { a } {}";
        assert_eq!(
            read(source),
            ["function f: qalithonda_numbers, const uint8_t *text, size_t text_len, uint32_t *cells, size_t cells_len"]
        );
        let source = "#[unsafe(no_mangle)] pub extern \"C\" fn f(\n p: HostPage,\n place: usize,\n) -> HostEdited { g() }";
        assert_eq!(read(source), ["function f: qalithonda_edited, qalithonda_page page, size_t place"]);
        let source = "#[unsafe(no_mangle)] pub extern \"C\" fn f(a: &[u32; 3], counts: &mut [u32; 9]) -> u16 {}";
        assert_eq!(read(source), ["function f: uint16_t, const uint32_t a[3], uint32_t counts[9]"]);
        assert_eq!(read("#[unsafe(no_mangle)] pub extern \"C\" fn f() -> usize {}"), ["function f: size_t"]);
    }

    #[test]
    fn what_is_not_exported_says_nothing() {
        assert!(read("pub fn f() -> u8 {} // #[unsafe(no_mangle)]\npub struct S { pub a: bool }").is_empty());
    }

    #[test]
    fn structs() {
        let source = "// A step.\n#[repr(C)]\n#[derive(Clone, Copy)]\npub struct HostUtf7Step { pub given: u32, pub answer: Numbers, }";
        assert_eq!(read(source), ["struct qalithonda_utf7_stepped: uint32_t given, qalithonda_numbers answer"]);
    }

    #[test]
    fn constants() {
        let source = "pub const LIMIT: usize = 1048576; match a { Accepted(_) => 0, Refused(why, _) => f(why) } \
                      match r { Refusal::HighByte => 1, Refusal::EmptyG2 => 6 } match k { Kind::Utf7Body => 1 } \
                      match a { Accepted(count) => count, } g(Kind::Jp2) const NEVER: usize = 18446744073709551615;";
        assert_eq!(
            read(source),
            [
                "constant QALITHONDA_LIMIT: 1048576",
                "constant QALITHONDA_ACCEPTED: 0",
                "constant QALITHONDA_HIGH_BYTE: 1",
                "constant QALITHONDA_EMPTY_G2: 6",
                "constant QALITHONDA_UTF7_BODY: 1",
                "constant QALITHONDA_NEVER_SAVED: SIZE_MAX"
            ]
        );
    }

    #[test]
    fn what_has_no_form_in_c_is_an_error() {
        let unread = [
            "#[unsafe(no_mangle)] pub fn f() -> u8 {}",
            "#[unsafe(no_mangle)] pub extern \"C\" fn f(a: u8) {}",
            "#[unsafe(no_mangle)] pub extern \"C\" fn f(a: Other) -> u8 {}",
            "#[unsafe(no_mangle)] pub extern \"C\" fn f(a: &mut u8) -> u8 {}",
            "#[unsafe(no_mangle)] pub extern \"C\" fn f(a: &[Other]) -> u8 {}",
            "#[unsafe(no_mangle)] pub extern \"C\" fn f(a: u8) -> Other {}",
            "#[unsafe(no_mangle)] pub extern \"C\" fn f(a: u8) -> &u8 {}",
            "#[repr(C)] pub struct Other { pub a: u8 }",
            "#[repr(C)] pub struct Numbers { a: u8 }",
            "#[repr(C)] pub struct Numbers { pub a: [u8; 3] }",
            "match k { Kind::Jp2 => two }",
            "const NEVER: usize = 4294967295;",
        ];
        for source in unread {
            assert!(items(source).is_err(), "{source}");
        }
    }
}
