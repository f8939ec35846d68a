//! What a header declares, and the comparison of two lists of such items.

/// A function, a struct or a constant, in C's terms.
#[derive(Clone, Debug, PartialEq)]
pub struct Item {
    pub name: String,
    pub what: What,
    /// As C spells them: a function's result and then its parameters, a struct's fields, a constant's number.
    pub parts: Vec<String>,
}

#[derive(Clone, Copy, Debug, PartialEq)]
pub enum What {
    Function,
    Struct,
    Constant,
}

impl What {
    pub fn name(self) -> &'static str {
        match self {
            What::Function => "function",
            What::Struct => "struct",
            What::Constant => "constant",
        }
    }

    /// What the part at this index is.
    fn part(self, index: usize) -> String {
        match (self, index) {
            (What::Function, 0) => "the result".to_string(),
            (What::Function, _) => format!("parameter {index}"),
            (What::Struct, _) => format!("field {}", index + 1),
            (What::Constant, _) => "the number".to_string(),
        }
    }
}

impl Item {
    fn title(&self) -> String {
        format!("{} {}", self.what.name(), self.name)
    }
}

/// One check for each item of either side: both have it, with the same parts in the same order.
pub fn compare(header: &[Item], source: &[Item]) -> Vec<(String, Result<String, String>)> {
    let same = |left: &Item, right: &Item| left.what == right.what && left.name == right.name;
    let only_declared = header.iter().filter(|item| !source.iter().any(|other| same(item, other)));
    let mut checks: Vec<(String, Result<String, String>)> =
        only_declared.map(|item| (item.title(), Err("the source does not have it".to_string()))).collect();
    for item in source {
        let result = match header.iter().filter(|other| same(item, other)).collect::<Vec<_>>()[..] {
            [] => Err("the header does not have it".to_string()),
            [declared] => difference(declared, item),
            _ => Err("the header has it twice".to_string()),
        };
        checks.push((item.title(), result));
    }
    checks
}

/// The parts that both have, or the first that differs.
fn difference(header: &Item, source: &Item) -> Result<String, String> {
    let spelled = |part: Option<&String>| part.map_or("missing".to_string(), |part| format!("`{part}`"));
    for index in 0..header.parts.len().max(source.parts.len()) {
        let (declared, meant) = (header.parts.get(index), source.parts.get(index));
        if declared != meant {
            let part = header.what.part(index);
            return Err(format!("{part} is {} in the header and {} in the source", spelled(declared), spelled(meant)));
        }
    }
    Ok(source.parts.join(", "))
}

#[cfg(test)]
mod tests {
    use super::*;

    fn item(what: What, name: &str, parts: &[&str]) -> Item {
        Item { name: name.to_string(), what, parts: parts.iter().map(|part| part.to_string()).collect() }
    }

    fn function(parts: &[&str]) -> Item {
        item(What::Function, "f", parts)
    }

    /// The problems of a header with these items, beside a source with those.
    fn problems(header: &[Item], source: &[Item]) -> Vec<String> {
        let checks = compare(header, source).into_iter();
        checks.filter_map(|(name, result)| result.err().map(|problem| format!("{name}: {problem}"))).collect()
    }

    #[test]
    fn the_same_items_in_any_order_have_no_problem() {
        let (f, s) = (function(&["size_t", "size_t a"]), item(What::Struct, "s", &["size_t a"]));
        assert!(problems(&[f.clone(), s.clone()], &[s.clone(), f.clone()]).is_empty());
        assert_eq!(compare(&[f.clone(), s.clone()], &[s, f]).len(), 2);
    }

    #[test]
    fn an_item_of_one_side_alone_is_found() {
        let f = function(&["size_t"]);
        assert_eq!(problems(&[], std::slice::from_ref(&f)), ["function f: the header does not have it"]);
        assert_eq!(problems(std::slice::from_ref(&f), &[]), ["function f: the source does not have it"]);
        assert_eq!(problems(&[f.clone(), f.clone()], &[f]), ["function f: the header has it twice"]);
    }

    #[test]
    fn a_struct_is_no_function() {
        let (f, s) = (function(&["size_t"]), item(What::Struct, "f", &["size_t"]));
        assert_eq!(problems(&[f], &[s]).len(), 2);
    }

    #[test]
    fn another_result_is_found() {
        let found = problems(&[function(&["uint32_t"])], &[function(&["size_t"])]);
        assert_eq!(found, ["function f: the result is `uint32_t` in the header and `size_t` in the source"]);
    }

    #[test]
    fn other_parameters_are_found() {
        let source = function(&["size_t", "const uint8_t *a", "size_t a_len"]);
        let with = |parts: &[&str]| problems(&[function(parts)], std::slice::from_ref(&source));
        let start = "function f: parameter";
        assert_eq!(
            with(&["size_t", "uint8_t *a", "size_t a_len"]),
            [format!("{start} 1 is `uint8_t *a` in the header and `const uint8_t *a` in the source")]
        );
        assert_eq!(
            with(&["size_t", "size_t a_len", "const uint8_t *a"]),
            [format!("{start} 1 is `size_t a_len` in the header and `const uint8_t *a` in the source")]
        );
        assert_eq!(
            with(&["size_t", "const uint8_t *a", "size_t n"]),
            [format!("{start} 2 is `size_t n` in the header and `size_t a_len` in the source")]
        );
        assert_eq!(
            with(&["size_t", "const uint8_t *a"]),
            [format!("{start} 2 is missing in the header and `size_t a_len` in the source")]
        );
        assert_eq!(
            with(&["size_t", "const uint8_t *a", "size_t a_len", "size_t b"]),
            [format!("{start} 3 is `size_t b` in the header and missing in the source")]
        );
    }

    #[test]
    fn other_fields_and_numbers_are_found() {
        let source = [item(What::Struct, "s", &["size_t a", "uint8_t b"]), item(What::Constant, "C", &["3"])];
        let header = [item(What::Struct, "s", &["uint8_t b", "size_t a"]), item(What::Constant, "C", &["4"])];
        assert_eq!(
            problems(&header, &source),
            [
                "struct s: field 1 is `uint8_t b` in the header and `size_t a` in the source",
                "constant C: the number is `4` in the header and `3` in the source"
            ]
        );
    }
}
