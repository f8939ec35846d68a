//! The items that a C header declares. What it cannot read is an error and never left out.

use super::item::{Item, What};
use super::tokens::{cut, is_word, split, start, tokens};

pub fn items(header: &str) -> Result<Vec<Item>, String> {
    let (mut found, declarations) = without_directives(header)?;
    let declarations = tokens(&declarations);
    let mut rest = &declarations[..];
    while !rest.is_empty() {
        let (declaration, behind) = rest.split_at(declaration_length(rest)?);
        found.extend(declared(declaration)?);
        rest = &behind[1..];
    }
    Ok(found)
}

/// The constants that are defined, and the text without any directive and without what is meant for C++ alone.
fn without_directives(header: &str) -> Result<(Vec<Item>, String), String> {
    let (mut constants, mut text) = (Vec::new(), String::new());
    let mut for_cplusplus = false;
    for line in header.lines() {
        let words: Vec<&str> = line.split_whitespace().collect();
        match words[..] {
            ["#ifdef", "__cplusplus"] => for_cplusplus = true,
            ["#endif"] => for_cplusplus = false,
            ["#define", name, number] => constants.push(constant(name, number)),
            ["#ifndef" | "#define" | "#include", _] => {}
            [directive, ..] if directive.starts_with('#') => return Err(format!("cannot read `{line}`")),
            _ if for_cplusplus => {}
            _ => {
                text.push_str(line);
                text.push('\n');
            }
        }
    }
    Ok((constants, text))
}

/// The place of the semicolon that ends the first declaration.
fn declaration_length(tokens: &[&str]) -> Result<usize, String> {
    let mut depth = 0;
    for (place, token) in tokens.iter().enumerate() {
        match *token {
            "{" => depth += 1,
            "}" => depth -= 1,
            ";" if depth == 0 => return Ok(place),
            _ => {}
        }
    }
    Err(format!("no end of `{}`", start(tokens)))
}

fn declared(declaration: &[&str]) -> Result<Vec<Item>, String> {
    match declaration {
        ["enum", _, "{", numbers @ .., "}"] => split(numbers, ",").into_iter().map(numbered).collect(),
        ["typedef", "struct", "{", fields @ .., "}", name] => {
            let parts = split(fields, ";").into_iter().map(spelled).collect::<Result<_, _>>()?;
            Ok(vec![Item { name: name.to_string(), what: What::Struct, parts }])
        }
        [before @ .., ")"] => Ok(vec![function(before)?]),
        _ => Err(format!("cannot read `{}`", start(declaration))),
    }
}

fn numbered(entry: &[&str]) -> Result<Item, String> {
    match entry {
        [name, "=", number] => Ok(constant(name, number)),
        _ => Err(format!("cannot read `{}` in an enum", start(entry))),
    }
}

fn constant(name: &str, number: &str) -> Item {
    Item { name: name.to_string(), what: What::Constant, parts: vec![number.to_string()] }
}

/// The function that is declared by these tokens and a closing parenthesis.
fn function(tokens: &[&str]) -> Result<Item, String> {
    let (before, parameters) = cut(tokens, "(")?;
    let [result, name] = before else {
        return Err(format!("cannot read `{}`", start(tokens)));
    };
    let mut parts = vec![result.to_string()];
    if parameters != ["void"] {
        for parameter in split(parameters, ",") {
            parts.push(spelled(parameter)?);
        }
    }
    Ok(Item { name: name.to_string(), what: What::Function, parts })
}

/// A parameter or field in one spelling: `const uint8_t *text`, `uint32_t counts[9]`.
fn spelled(tokens: &[&str]) -> Result<String, String> {
    let mut found = String::new();
    for token in tokens {
        if !is_word(token) && !["*", "[", "]"].contains(token) {
            return Err(format!("cannot read `{}`", start(tokens)));
        }
        if !found.is_empty() && !found.ends_with(['*', '[']) && *token != "[" && *token != "]" {
            found.push(' ');
        }
        found.push_str(token);
    }
    Ok(found)
}

#[cfg(test)]
mod tests {
    use super::*;

    /// The items as one line each.
    fn read(header: &str) -> Vec<String> {
        let items = items(header).expect("a header that can be read").into_iter();
        items.map(|item| format!("{} {}: {}", item.what.name(), item.name, item.parts.join(", "))).collect()
    }

    #[test]
    fn functions() {
        let header =
            "/* f(x); */ numbers f(const uint8_t *text, size_t text_len,\n  uint32_t counts[9]); page g(void);";
        assert_eq!(
            read(header),
            ["function f: numbers, const uint8_t *text, size_t text_len, uint32_t counts[9]", "function g: page"]
        );
        assert_eq!(read("a f(uint8_t const * x);"), ["function f: a, uint8_t const *x"]);
    }

    #[test]
    fn structs() {
        let header = "typedef struct { uint32_t number; /* a */ size_t place; } numbers;";
        assert_eq!(read(header), ["struct numbers: uint32_t number, size_t place"]);
    }

    #[test]
    fn constants() {
        let header =
            "#define LIMIT 1048576\n#define NEVER SIZE_MAX\nenum number { ACCEPTED = 0, /* b, c */ HIGH_BYTE = 1 };";
        let constants =
            ["constant LIMIT: 1048576", "constant NEVER: SIZE_MAX", "constant ACCEPTED: 0", "constant HIGH_BYTE: 1"];
        assert_eq!(read(header), constants);
    }

    #[test]
    fn guards_and_lines_for_cplusplus_say_nothing() {
        let header =
            "#ifndef H\n#define H\n#include <stddef.h>\n#ifdef __cplusplus\nextern \"C\" {\n#endif\na f(void);\n\
                      #ifdef __cplusplus\n}\n#endif\n#endif\n";
        assert_eq!(read(header), ["function f: a"]);
    }

    #[test]
    fn what_cannot_be_read_is_an_error() {
        let unread = [
            "extern int x;",
            "static inline a f(void) { return 0; }",
            "a *f(void);",
            "a f(b (*g)(c));",
            "a f(void)",
            "enum e { A, B };",
            "typedef struct { size_t a, b; } s;",
            "typedef uint32_t cell;",
            "#if X\n#endif\n",
        ];
        for header in unread {
            assert!(items(header).is_err(), "{header}");
        }
    }
}
