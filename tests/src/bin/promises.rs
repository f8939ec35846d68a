//! Lists the public functions of the library crates that have no `ensures`, and so promise nothing, or that have a
//! `requires`, where they must refuse bad input instead.
//!
//! The methods that a `pub trait` declares are public functions too. The function of an `impl From` or `impl TryFrom` is
//! public wherever it stands. Std's traits promise nothing of it but what the ghost member `from_gives` or
//! `try_from_gives` says, so the `impl` must give that member.
//!
//! Run it from the root of the repository: it looks at crates/*/src/lib.rt and at the files that `mod` items lead to.
//! Crates with src/main.rt alone are programs: only their conversions are looked at. The last line is
//! `N public functions, M without a full promise`.

use std::collections::HashSet;
use std::fs;
use std::path::{Path, PathBuf};
use std::process::ExitCode;

/// A word, a literal or a sign of a source text, with its line.
#[derive(Clone, Copy)]
struct Token<'a> {
    text: &'a str,
    line: usize,
}

/// The tokens of a source text, without its comments.
fn tokens(source: &str) -> Vec<Token<'_>> {
    let mut found = Vec::new();
    let (mut place, mut line) = (0, 1);
    while place < source.len() {
        let rest = &source[place..];
        let length = token_length(rest);
        let text = &rest[..length];
        if !text.trim().is_empty() && !text.starts_with("//") && !text.starts_with("/*") {
            found.push(Token { text, line });
        }
        line += text.matches('\n').count();
        place += length;
    }
    found
}

/// The length of the token, comment or white space that a text starts with.
fn token_length(rest: &str) -> usize {
    let is_word = |letter: char| letter.is_alphanumeric() || letter == '_' || letter == '\'';
    let first = rest.chars().next().expect("a text that is not empty");
    if rest.starts_with("//") {
        rest.find('\n').unwrap_or(rest.len())
    } else if rest.starts_with("/*") {
        block_comment_length(rest)
    } else if first == '"' {
        quoted_length(rest, '"')
    } else if is_byte_literal(rest) {
        1 + quoted_length(&rest[1..], '\'')
    } else if first.is_alphanumeric() || first == '_' {
        // A name of a specification may have primes at its end.
        rest.find(|letter| !is_word(letter)).unwrap_or(rest.len())
    } else {
        first.len_utf8()
    }
}

/// Comments may stand inside one another.
fn block_comment_length(rest: &str) -> usize {
    let mut depth = 0;
    let mut place = 0;
    while let Some(distance) = rest[place..].find(['/', '*']) {
        place += distance;
        match rest.get(place..place + 2) {
            Some("/*") => (depth, place) = (depth + 1, place + 2),
            Some("*/") => (depth, place) = (depth - 1, place + 2),
            _ => place += 1,
        }
        if depth == 0 {
            return place;
        }
    }
    rest.len()
}

/// The length of a literal between two of this quotation mark, where a backslash stands before a mark inside.
fn quoted_length(rest: &str, mark: char) -> usize {
    let mut escaped = false;
    for (place, letter) in rest.char_indices().skip(1) {
        if letter == mark && !escaped {
            return place + 1;
        }
        escaped = letter == '\\' && !escaped;
    }
    rest.len()
}

/// A byte as `b'x'` or `b'\n'`, and not a name `b'` of a specification.
fn is_byte_literal(rest: &str) -> bool {
    let mut letters = rest.chars();
    letters.next() == Some('b')
        && letters.next() == Some('\'')
        && (letters.next() == Some('\\') || letters.next() == Some('\''))
}

/// The traits of conversions, each with the ghost member that says what an `impl` of it gives.
const CONVERSIONS: [(&str, &str); 2] = [("From", "from_gives"), ("TryFrom", "try_from_gives")];

/// A function as its source shows it.
struct Function {
    /// Its name, after that of the type whose method it is.
    name: String,
    line: usize,
    is_pub: bool,
    /// Every module of its file around it is `pub`.
    open: bool,
    /// It can be called wherever it stands: by programs in other languages, as it has the attribute `no_mangle`, or
    /// through the trait of a conversion.
    exported: bool,
    promise: Promise,
    requires: bool,
}

/// The word of a clause or of a ghost member that says what a function gives, and whether it stands there.
#[derive(Clone, Copy)]
struct Promise {
    word: &'static str,
    stands: bool,
}

impl Function {
    /// What its promise lacks, if anything.
    fn faults(&self) -> Vec<String> {
        let Promise { word, stands } = self.promise;
        let faults = [(!stands, format!("no {word}")), (self.requires, "has a requires".to_string())];
        faults.into_iter().filter(|(is_fault, _)| *is_fault).map(|(_, name)| name).collect()
    }
}

/// A `mod NAME;`, which leads to another file.
struct Module {
    name: String,
    open: bool,
}

/// What a file declares.
#[derive(Default)]
struct Items {
    functions: Vec<Function>,
    modules: Vec<Module>,
    /// The names in `pub use` items.
    shown: HashSet<String>,
}

/// What is around an item: the type of an `impl` or the name of a trait, whether that is a `pub trait`, in the `impl` of
/// a conversion its promise, and whether every module is `pub`.
#[derive(Clone, Copy)]
struct Scope<'a> {
    owner: Option<&'a str>,
    in_pub_trait: bool,
    conversion: Option<Promise>,
    open: bool,
}

fn items(source: &str) -> Items {
    let mut found = Items::default();
    let scope = Scope { owner: None, in_pub_trait: false, conversion: None, open: true };
    gather(&tokens(source), scope, &mut found);
    found
}

/// Gathers the items that these tokens make up.
fn gather(tokens: &[Token], scope: Scope, found: &mut Items) {
    let mut place = 0;
    let mut exported = false;
    while place < tokens.len() {
        match tokens[place].text {
            "fn" => {
                let (function, end) = function(tokens, place, scope, exported);
                found.functions.push(function);
                exported = false;
                place = end;
            }
            "impl" => {
                let start = next_place(tokens, place, "{");
                let (of, owner) = header(&tokens[place + 1..start]);
                let conversion = of.and_then(|of| conversion(of, &tokens[start..past_block(tokens, start)]));
                place = gather_block(tokens, start, Scope { owner: Some(owner), conversion, ..scope }, found);
            }
            "trait" => {
                let (owner, in_pub_trait) = (Some(text_at(tokens, place + 1)), is_pub(tokens, place));
                let start = next_place(tokens, place, "{");
                place = gather_block(tokens, start, Scope { owner, in_pub_trait, ..scope }, found);
            }
            "mod" => {
                let inner = Scope { open: scope.open && is_pub(tokens, place), ..scope };
                if text_at(tokens, place + 2) == ";" {
                    found.modules.push(Module { name: text_at(tokens, place + 1).to_string(), open: inner.open });
                }
                place = gather_block(tokens, place + 2, inner, found);
            }
            "use" => {
                let end = next_place(tokens, place, ";");
                if is_pub(tokens, place) {
                    found.shown.extend(tokens[place..end].iter().map(|token| token.text.to_string()));
                }
                place = end;
            }
            // The functions of an `extern "C" { .. }` are items like others.
            "{" if place == 0 || tokens[place - 1].text != "\"C\"" => place = past_block(tokens, place),
            text => {
                exported |= text == "no_mangle";
                place += 1;
            }
        }
    }
}

/// Gathers the items of the block that starts here, if one does; gives the place past it.
fn gather_block(tokens: &[Token], start: usize, scope: Scope, found: &mut Items) -> usize {
    if text_at(tokens, start) != "{" {
        return start;
    }
    let end = past_block(tokens, start);
    gather(&tokens[start + 1..end], scope, found);
    end
}

fn text_at<'a>(tokens: &[Token<'a>], place: usize) -> &'a str {
    tokens.get(place).map_or("", |token| token.text)
}

/// The first place from `start` on that has this text, or the end.
fn next_place(tokens: &[Token], start: usize, text: &str) -> usize {
    (start..tokens.len()).find(|&place| tokens[place].text == text).unwrap_or(tokens.len())
}

/// The trait that an `impl` is of, if it is of one, and its type, from the tokens between `impl` and its block: of each
/// the last word of its path, without parameters.
fn header<'a>(tokens: &[Token<'a>]) -> (Option<&'a str>, &'a str) {
    let (mut of, mut name) = (None, "");
    let mut depth = 0;
    for (place, token) in tokens.iter().enumerate() {
        match token.text {
            "<" => depth += 1,
            // That of `->` ends no parameters.
            ">" if place > 0 && tokens[place - 1].text != "-" => depth -= 1,
            "for" if depth == 0 => of = Some(name),
            "where" if depth == 0 => break,
            text if depth == 0 && text.starts_with(|first: char| first.is_alphabetic() || first == '_') => name = text,
            _ => {}
        }
    }
    (of, name)
}

/// What an `impl` with this block promises, if the trait is that of a conversion.
fn conversion(of: &str, block: &[Token]) -> Option<Promise> {
    let (_, word) = CONVERSIONS.into_iter().find(|(name, _)| *name == of)?;
    let mut place = 1;
    let mut stands = false;
    while place < block.len() {
        stands |= ["ghost", word, "="].iter().enumerate().all(|(next, text)| text_at(block, place + next) == *text);
        place = if block[place].text == "{" { past_block(block, place) } else { place + 1 };
    }
    Some(Promise { word, stands })
}

/// Whether `pub` stands before the item whose word is at this place. (`pub(crate)` is not public.)
fn is_pub(tokens: &[Token], place: usize) -> bool {
    let mut before = tokens[..place].iter().rev().map(|token| token.text);
    before.find(|text| !["extern", "\"C\""].contains(text)) == Some("pub")
}

/// The place past the block that starts here.
fn past_block(tokens: &[Token], start: usize) -> usize {
    let mut depth = 0;
    for (place, token) in tokens.iter().enumerate().skip(start) {
        match token.text {
            "{" => depth += 1,
            "}" => depth -= 1,
            _ => {}
        }
        if depth == 0 {
            return place + 1;
        }
    }
    tokens.len()
}

/// The function whose `fn` is at this place, and the place past it.
fn function(tokens: &[Token], place: usize, scope: Scope, exported: bool) -> (Function, usize) {
    let (mut ensures, mut requires) = (false, false);
    let mut end = past_signature(tokens, place);
    while ["ghost", "requires", "ensures"].contains(&text_at(tokens, end)) {
        ensures |= tokens[end].text == "ensures";
        requires |= tokens[end].text == "requires";
        // A clause may have a name before its block.
        end = past_block(tokens, next_place(tokens, end, "{"));
    }
    if text_at(tokens, end) == "{" {
        end = past_block(tokens, end);
    }
    let name = text_at(tokens, place + 1);
    let name = scope.owner.map_or(name.to_string(), |owner| format!("{owner}::{name}"));
    // The methods of a trait are as public as it is, without a word of their own.
    let is_pub = scope.in_pub_trait || is_pub(tokens, place);
    let (line, open) = (tokens[place].line, scope.open);
    let exported = exported || scope.conversion.is_some();
    let promise = scope.conversion.unwrap_or(Promise { word: "ensures", stands: ensures });
    (Function { name, line, is_pub, open, exported, promise, requires }, end)
}

/// The place of the first clause, of the body, or of the semicolon of a declaration.
fn past_signature(tokens: &[Token], start: usize) -> usize {
    let mut depth = 0;
    for (place, token) in tokens.iter().enumerate().skip(start) {
        match token.text {
            "(" | "[" => depth += 1,
            ")" | "]" => depth -= 1,
            "{" | ";" | "ghost" | "requires" | "ensures" if depth == 0 => return place,
            _ => {}
        }
    }
    tokens.len()
}

/// A file of a crate. It is open when every module on the way to it is `pub`.
struct File {
    path: PathBuf,
    open: bool,
    items: Items,
}

/// Gives the text of a file, if it is there.
type Load<'a> = &'a dyn Fn(&Path) -> Option<String>;

/// The files of a crate, from its first on. None of a program is open.
fn files(first: &Path, load: Load) -> Result<Vec<File>, String> {
    let mut found: Vec<File> = Vec::new();
    let mut wanted = vec![(vec![first.to_path_buf()], first.ends_with("lib.rt"))];
    while let Some((candidates, open)) = wanted.pop() {
        let file = candidates.iter().find_map(|path| load(path).map(|source| (path, source)));
        let (path, source) = file.ok_or_else(|| format!("none of these files is there: {candidates:?}"))?;
        let items = items(&source);
        let below = folder_below(path);
        for module in &items.modules {
            let candidates = ["", "/mod"].map(|end| below.join(format!("{}{end}.rt", module.name)));
            wanted.push((candidates.to_vec(), open && module.open));
        }
        found.push(File { path: path.clone(), open, items });
    }
    found.sort_by(|left, right| left.path.cmp(&right.path));
    Ok(found)
}

/// The folder of the files that a file's `mod` items name.
fn folder_below(file: &Path) -> PathBuf {
    match file.file_stem().and_then(|stem| stem.to_str()) {
        Some("lib" | "main" | "mod") => file.with_file_name(""),
        _ => file.with_extension(""),
    }
}

/// The public functions of a crate, each with its file.
fn public_functions(first: &Path, load: Load) -> Result<Vec<(PathBuf, Function)>, String> {
    let files = files(first, load)?;
    let is_open = files.iter().any(|file| file.open);
    let shown: HashSet<String> = files.iter().flat_map(|file| file.items.shown.iter().cloned()).collect();
    let mut public = Vec::new();
    for File { path, open, items } in files {
        for function in items.functions {
            // `pub use inner::f;` makes f public although `mod inner;` is not, and `pub use inner::T;` T's methods.
            let is_shown = is_open && shown.contains(function.name.split("::").next().unwrap_or(""));
            if function.exported || function.is_pub && (open && function.open || is_shown) {
                public.push((path.clone(), function));
            }
        }
    }
    Ok(public)
}

/// The first files of the crates: of libraries src/lib.rt, and of programs src/main.rt.
fn first_files() -> Result<Vec<PathBuf>, String> {
    let crates = fs::read_dir("crates").map_err(|error| format!("cannot list crates/: {error}"))?;
    let firsts = ["src/lib.rt", "src/main.rt"];
    let mut found: Vec<PathBuf> =
        crates.flatten().flat_map(|entry| firsts.map(|first| entry.path().join(first))).collect();
    found.retain(|file| file.exists());
    found.sort();
    Ok(found)
}

/// Lists the functions that lack something and prints the counts; gives how many those are.
fn report() -> Result<usize, String> {
    let (mut total, mut lacking) = (0, 0);
    for first in first_files()? {
        for (file, function) in public_functions(&first, &|path| fs::read_to_string(path).ok())? {
            let faults = function.faults();
            if !faults.is_empty() {
                println!("{}:{}: {}: {}", file.display(), function.line, function.name, faults.join(", "));
                lacking += 1;
            }
            total += 1;
        }
    }
    println!("{total} public functions, {lacking} without a full promise");
    Ok(lacking)
}

fn main() -> ExitCode {
    match report() {
        Ok(0) => ExitCode::SUCCESS,
        Ok(_) => ExitCode::FAILURE,
        Err(problem) => {
            eprintln!("promises: {problem}");
            ExitCode::FAILURE
        }
    }
}

#[cfg(test)]
mod tests {
    use super::*;

    /// The public functions of a crate of these files, each as its name and what it lacks.
    fn public(files: &[(&str, &str)]) -> Vec<String> {
        let load =
            |path: &Path| files.iter().find(|(name, _)| Path::new(name) == path).map(|(_, text)| text.to_string());
        let functions = public_functions(Path::new(files[0].0), &load).expect("every file is there");
        functions.iter().map(|(_, function)| format!("{}: {}", function.name, function.faults().join(", "))).collect()
    }

    fn public_in(source: &str) -> Vec<String> {
        public(&[("src/lib.rt", source)])
    }

    #[test]
    fn a_promise_or_none() {
        assert_eq!(public_in("pub fn f(x: u8) -> u8 { x }"), ["f: no ensures"]);
        assert_eq!(public_in("pub fn f(x: u8) -> u8 ensures { result ≡ x } { x }"), ["f: "]);
        assert_eq!(public_in("pub fn f(x: u8) -> u8 ensures same { result ≡ record { a = x } } { x }"), ["f: "]);
    }

    #[test]
    fn a_requires_is_a_fault() {
        let both = "pub fn f(s: &[u8; 4]) requires { a } ensures b { c } { g(s); }";
        assert_eq!(public_in(both), ["f: has a requires"]);
        assert_eq!(public_in("pub fn f() requires { a } {}"), ["f: no ensures, has a requires"]);
        assert_eq!(public_in("pub fn f() ghost { ℕ } requires { a } ensures { c } {}"), ["f: has a requires"]);
    }

    #[test]
    fn private_functions_are_left_out() {
        assert!(public_in("fn f() requires { a } {}").is_empty());
        assert!(public_in("pub(crate) fn f() {}").is_empty());
        assert!(public_in("mod inner { pub fn f() {} }").is_empty());
    }

    #[test]
    fn one_function_does_not_lend_its_clauses_to_another() {
        let source = "pub fn f(x: u8) -> u8 { if x < 3 { 1 } else { 2 } } pub fn g() ensures { a } {}";
        assert_eq!(public_in(source), ["f: no ensures", "g: "]);
    }

    #[test]
    fn use_items_make_functions_and_methods_public() {
        assert_eq!(public_in("mod inner { pub fn f() {} pub fn g() {} } pub use inner::f;"), ["f: no ensures"]);
        assert!(public_in("mod inner { fn f() {} } pub use inner::f;").is_empty());
        assert!(public_in("mod inner { pub fn f() {} } use inner::f;").is_empty());
        let methods = "mod inner { pub struct T { pub a: u8 } impl T { pub fn m(self) {} } } pub use inner::{g, T};";
        assert_eq!(public_in(methods), ["T::m: no ensures"]);
    }

    #[test]
    fn methods_carry_their_type() {
        let source = "impl<'a> Reader<'a> { pub fn new(s: &'a [u8]) -> Reader<'a> {} fn at(self) {} } pub fn f() {}";
        assert_eq!(public_in(source), ["Reader::new: no ensures", "f: no ensures"]);
    }

    #[test]
    fn methods_of_a_public_trait_are_public() {
        let method =
            |clauses: &str| public_in(&format!("pub trait T: Copy {{ ghost m: {{ ℕ }}; fn f(self) {clauses} }}"));
        assert_eq!(method(";"), ["T::f: no ensures"]);
        assert_eq!(method("ensures { m self };"), ["T::f: "]);
        assert_eq!(method("ensures { m self } { g() }"), ["T::f: "]);
        assert_eq!(method("requires { a } ensures { b };"), ["T::f: has a requires"]);
        assert_eq!(method("ensures { a }; fn g(self) -> u8;"), ["T::f: ", "T::g: no ensures"]);
        assert!(public_in("trait T { fn f(self); } impl T for u8 { fn f(self) {} }").is_empty());
        assert!(public_in("mod inner { pub trait T { fn f(self); } }").is_empty());
        assert_eq!(public_in("mod inner { pub trait T { fn f(self); } } pub use inner::T;"), ["T::f: no ensures"]);
        assert_eq!(
            public_in("pub trait T { fn f(self) ensures { a }; } fn g() {} pub fn h() {}"),
            ["T::f: ", "h: no ensures"]
        );
    }

    #[test]
    fn a_conversion_has_its_member() {
        let conversion = |head: &str, member: &str| {
            public_in(&format!("impl {head} {{ type Error = E; {member} fn from(a: A) -> B {{ b }} }}"))
        };
        assert_eq!(conversion("From<A> for B", ""), ["B::from: no from_gives"]);
        assert_eq!(conversion("From<A> for B", "ghost from_gives = { λ a r. r ≡ b_of a };"), ["B::from: "]);
        assert_eq!(conversion("TryFrom<A> for B", "ghost from_gives = { G };"), ["B::from: no try_from_gives"]);
        assert_eq!(conversion("TryFrom<A> for B", "ghost try_from_gives = { G };"), ["B::from: "]);
        assert_eq!(conversion("From<A> for B", "// ghost from_gives = { G };\n"), ["B::from: no from_gives"]);
        assert!(conversion("Shows<A> for B", "").is_empty());
    }

    #[test]
    fn a_conversion_is_public_everywhere() {
        let source = "mod inner { impl From<A> for B { fn from(a: A) -> B { b } } }";
        assert_eq!(public_in(source), ["B::from: no from_gives"]);
        let program = [("src/main.rt", "mod inner; pub fn f() {} fn main() {}"), ("src/inner.rt", source)];
        assert_eq!(public(&program), ["B::from: no from_gives"]);
    }

    #[test]
    fn a_member_is_that_of_its_own_impl() {
        let without = "impl From<A> for B { fn from(a: A) -> B { g(); ghost from_gives = { G } } }";
        let with = "impl From<A> for u8 { ghost from_gives = { G }; fn from(a: A) -> u8 { 1 } }";
        assert_eq!(public_in(&format!("{without} {with}")), ["B::from: no from_gives", "u8::from: "]);
        assert_eq!(public_in(&format!("{with} {without}")), ["u8::from: ", "B::from: no from_gives"]);
    }

    #[test]
    fn a_conversion_is_known_by_its_trait() {
        let header_of = |source: &str| {
            let tokens = tokens(source);
            let (of, owner) = header(&tokens);
            format!("{} {owner}", of.unwrap_or("none"))
        };
        assert_eq!(header_of("<'a, F: Fn(u8) -> u8> From<F> for Reader<'a, F> where F: Copy"), "From Reader");
        assert_eq!(header_of("core::convert::TryFrom<Cursor<m::State>> for m::Kind"), "TryFrom Kind");
        assert_eq!(header_of("<T: From<u8>> Wrapped<T>"), "none Wrapped");
    }

    #[test]
    fn exported_functions_are_public_everywhere() {
        assert_eq!(public_in("#[no_mangle]\npub extern \"C\" fn f(x: u8) -> u8 { x }"), ["f: no ensures"]);
        assert_eq!(public_in("pub extern \"C\" fn f() requires { a } {}"), ["f: no ensures, has a requires"]);
        assert_eq!(public_in("extern \"C\" { pub fn f(x: u8); fn g(); } fn h() {}"), ["f: no ensures"]);
        assert_eq!(public_in("mod c { #[no_mangle] pub extern \"C\" fn f() {} fn g() {} }"), ["f: no ensures"]);
    }

    #[test]
    fn comments_and_literals_say_nothing() {
        assert!(public_in("// pub fn f() {}\n/* pub fn g() /* h */ {} */").is_empty());
        assert_eq!(public_in("pub fn f() // ensures { a }\n{}"), ["f: no ensures"]);
        assert_eq!(public_in("pub fn f() /* requires { a } */ ensures { b' ≡ c' } {}"), ["f: "]);
        let literals = "fn f() { g(b'{', b'\\'', b\"}{\\\"{\", \"{\"); } pub fn h() {}";
        assert_eq!(public_in(literals), ["h: no ensures"]);
    }

    #[test]
    fn modules_lead_to_files() {
        let found = public(&[
            ("src/lib.rt", "ghost use specs.Read.{a, b};\npub mod open;\nmod closed;\npub use closed::shown;"),
            ("src/open.rt", "pub mod deeper;\npub fn in_open() {}"),
            ("src/open/deeper.rt", "pub fn in_deeper() {}"),
            ("src/closed/mod.rt", "pub mod within;\npub fn shown() {} pub fn hidden() {}"),
            ("src/closed/within.rt", "pub fn in_closed() {}"),
            ("src/stray.rt", "pub fn stray() {}"),
        ]);
        assert_eq!(found, ["shown: no ensures", "in_deeper: no ensures", "in_open: no ensures"]);
    }

    #[test]
    fn a_missing_file_is_an_error() {
        let load = |path: &Path| path.ends_with("lib.rt").then(|| "mod gone;".to_string());
        assert!(public_functions(Path::new("src/lib.rt"), &load).is_err());
    }

    #[test]
    fn lines_are_counted() {
        let found = items("// one\n/* two\n three */\npub fn f()\n{}\n\n  fn g() {}");
        assert_eq!(found.functions.iter().map(|function| function.line).collect::<Vec<_>>(), [4, 7]);
    }
}
