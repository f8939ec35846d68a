//! The layout of the structs: as a C compiler sees it with the header, and as Rust sees it.

use std::fmt::Write;
use std::mem::{offset_of, size_of};
use std::path::Path;
use std::process::Command;
use std::{env, fs, process};

use super::item::{Item, What};

/// A struct: its name and size, and the name, offset and size of each field.
#[derive(Clone, Debug, PartialEq)]
pub struct Layout {
    pub name: String,
    pub size: usize,
    pub fields: Vec<(String, usize, usize)>,
}

/// Declares the structs for Rust, and the function that gives their layouts.
macro_rules! structs {
    ($($name:ident { $($field:ident: $ty:ty),* })*) => {
        $(
            #[allow(dead_code, non_camel_case_types)]
            #[repr(C)]
            struct $name {
                $($field: $ty),*
            }
        )*

        pub fn in_rust() -> Vec<Layout> {
            vec![$(Layout {
                name: stringify!($name).to_string(),
                size: size_of::<$name>(),
                fields: vec![
                    $((stringify!($field).to_string(), offset_of!($name, $field), size_of::<$ty>())),*
                ],
            }),*]
        }
    };
}

structs! {
    qalithonda_numbers { number: u32, place: usize }
    qalithonda_page { kind: u32, opening: usize, length: usize, used: usize, done: usize, saved: usize }
    qalithonda_edited { answer: qalithonda_numbers, page: qalithonda_page }
    qalithonda_asked { answer: qalithonda_numbers, unchanged: u32 }
    qalithonda_bench { kind: u32, opening: usize, length: usize, standing: usize, saved: usize }
    qalithonda_benches { bench0: qalithonda_bench, bench1: qalithonda_bench, used: usize }
    qalithonda_benches_edited { answer: qalithonda_numbers, benches: qalithonda_benches }
    qalithonda_compared {
        answer: qalithonda_numbers, text: u32, same: u32, index: usize, first: usize, second: usize
    }
    qalithonda_utf7_cursor { at: usize, handed: usize, shift: u32, pending: u32, value: u32 }
    qalithonda_utf7_stepped {
        given: u32, cell: u32, begin: usize, end: usize, answer: qalithonda_numbers, next: qalithonda_utf7_cursor
    }
    qalithonda_jp2_cursor { at: usize, handed: usize, g0: u16, g2: u16, phase: u8, first: u8, second: u8 }
    qalithonda_jp2_stepped {
        given: u32, cell: u32, begin: usize, end: usize, answer: qalithonda_numbers, next: qalithonda_jp2_cursor
    }
    qalithonda_mailbox_cursor { at: usize, handed: usize, shift: u32, pending: u32, value: u32 }
    qalithonda_mailbox_stepped {
        given: u32, cell: u32, begin: usize, end: usize, answer: qalithonda_numbers, next: qalithonda_mailbox_cursor
    }
}

/// One check that C compiles, and one for each struct of either side.
pub fn compare(
    header: &[Item],
    rust: &[Layout],
    c: Result<Vec<Layout>, String>,
) -> Vec<(String, Result<String, String>)> {
    let title = "header compiled as C99 with no warning".to_string();
    let c = match c {
        Ok(layouts) => layouts,
        Err(problem) => return vec![(title, Err(problem))],
    };
    let mut checks = vec![(title, Ok(format!("{} structs", c.len())))];
    for item in structs_of(header).filter(|item| !rust.iter().any(|layout| layout.name == item.name)) {
        checks.push((format!("layout {}", item.name), Err("this test has no such struct in Rust".to_string())));
    }
    for meant in rust {
        let found = c.iter().find(|layout| layout.name == meant.name);
        checks.push((format!("layout {}", meant.name), difference(found, meant)));
    }
    checks
}

fn difference(c: Option<&Layout>, rust: &Layout) -> Result<String, String> {
    match c {
        None => Err("C does not have it".to_string()),
        Some(c) if c != rust => Err(format!("{} in C and {} in Rust", spelled(c), spelled(rust))),
        Some(_) => Ok(spelled(rust)),
    }
}

/// `24 bytes: at 0+8, g0 16+2`: offset and size of each field.
fn spelled(layout: &Layout) -> String {
    let fields = layout.fields.iter().map(|(name, offset, size)| format!("{name} {offset}+{size}"));
    format!("{} bytes: {}", layout.size, fields.collect::<Vec<_>>().join(", "))
}

fn structs_of(header: &[Item]) -> impl Iterator<Item = &Item> {
    header.iter().filter(|item| item.what == What::Struct)
}

/// A C program that prints `struct NAME SIZE` and `field NAME OFFSET SIZE` for each struct of the header.
fn program(header: &[Item]) -> String {
    let mut lines = String::new();
    let mut line = |text: String| writeln!(lines, "    {text}").expect("a string takes all");
    for item in structs_of(header) {
        let name = &item.name;
        line(format!("printf(\"struct {name} %zu\\n\", sizeof({name}));"));
        for part in &item.parts {
            let field = part.rsplit([' ', '*']).next().unwrap_or(part);
            line(format!(
                "printf(\"field {field} %zu %zu\\n\", offsetof({name}, {field}), sizeof((({name} *)0)->{field}));"
            ));
        }
    }
    format!("#include \"qalithonda.h\"\n#include <stdio.h>\n\nint main(void)\n{{\n{lines}    return 0;\n}}\n")
}

/// What the program prints.
fn printed(output: &str) -> Result<Vec<Layout>, String> {
    let mut found: Vec<Layout> = Vec::new();
    for line in output.lines() {
        let number = |word: &str| word.parse().map_err(|_| format!("cannot read `{line}`"));
        let words: Vec<&str> = line.split(' ').collect();
        match (&words[..], found.last_mut()) {
            (["struct", name, size], _) => {
                found.push(Layout { name: name.to_string(), size: number(size)?, fields: Vec::new() });
            }
            (["field", name, offset, size], Some(layout)) => {
                layout.fields.push((name.to_string(), number(offset)?, number(size)?));
            }
            _ => return Err(format!("cannot read `{line}`")),
        }
    }
    Ok(found)
}

/// Compiles and runs the program in a folder of its own.
pub fn in_c(header: &[Item], include: &Path) -> Result<Vec<Layout>, String> {
    let folder = env::temp_dir().join(format!("qalithonda-header-{}", process::id()));
    fs::create_dir_all(&folder).map_err(|error| format!("cannot make {}: {error}", folder.display()))?;
    let output = run_in(&folder, &program(header), include);
    let _ = fs::remove_dir_all(&folder);
    printed(&output?)
}

fn run_in(folder: &Path, program: &str, include: &Path) -> Result<String, String> {
    let (source, built) = (folder.join("layout.c"), folder.join("layout"));
    fs::write(&source, program).map_err(|error| format!("cannot write {}: {error}", source.display()))?;
    let mut compiler = Command::new("cc");
    compiler.args(["-std=c99", "-Wall", "-Wextra", "-pedantic", "-Werror", "-I"]).arg(include);
    output_of(compiler.arg(&source).arg("-o").arg(&built))?;
    output_of(&mut Command::new(&built))
}

/// The standard output of a command that must do well, or on one line what it says instead.
fn output_of(command: &mut Command) -> Result<String, String> {
    let name = command.get_program().to_string_lossy().into_owned();
    let output = command.output().map_err(|error| format!("cannot run {name}: {error}"))?;
    if output.status.success() {
        return Ok(String::from_utf8_lossy(&output.stdout).into_owned());
    }
    let said = String::from_utf8_lossy(&output.stderr).into_owned();
    Err(format!("{name} failed: {}", said.split_whitespace().collect::<Vec<_>>().join(" ")))
}

#[cfg(test)]
mod tests {
    use super::*;

    fn item(name: &str, parts: &[&str]) -> Item {
        Item { name: name.to_string(), what: What::Struct, parts: parts.iter().map(|part| part.to_string()).collect() }
    }

    fn layout(name: &str, size: usize, fields: &[(&str, usize, usize)]) -> Layout {
        let fields = fields.iter().map(|&(name, offset, size)| (name.to_string(), offset, size)).collect();
        Layout { name: name.to_string(), size, fields }
    }

    fn problems(header: &[Item], rust: &[Layout], c: &[Layout]) -> Vec<String> {
        let checks = compare(header, rust, Ok(c.to_vec())).into_iter();
        checks.filter_map(|(name, result)| result.err().map(|problem| format!("{name}: {problem}"))).collect()
    }

    #[test]
    fn a_layout_is_read_back() {
        let output = "struct s 16\nfield a 0 4\nfield b 8 8\nstruct t 1\nfield c 0 1\n";
        let expected = [layout("s", 16, &[("a", 0, 4), ("b", 8, 8)]), layout("t", 1, &[("c", 0, 1)])];
        assert_eq!(printed(output), Ok(expected.to_vec()));
        assert!(printed("field a 0 4\n").is_err());
        assert!(printed("struct s many\n").is_err());
    }

    #[test]
    fn a_program_names_each_field() {
        let program = program(&[item("s", &["uint32_t a", "size_t b"])]);
        assert!(program.contains("sizeof(s)"), "{program}");
        assert!(program.contains("offsetof(s, a), sizeof(((s *)0)->a)"), "{program}");
        assert!(program.contains("offsetof(s, b), sizeof(((s *)0)->b)"), "{program}");
    }

    #[test]
    fn other_layouts_are_found() {
        let (header, rust) = ([item("s", &["uint32_t a", "size_t b"])], [layout("s", 16, &[("a", 0, 4), ("b", 8, 8)])]);
        assert!(problems(&header, &rust, &rust).is_empty());
        let others = [
            layout("s", 24, &[("a", 0, 4), ("b", 8, 8)]),
            layout("s", 16, &[("a", 0, 4), ("b", 4, 8)]),
            layout("s", 16, &[("a", 0, 8), ("b", 8, 8)]),
            layout("s", 16, &[("a", 0, 4), ("c", 8, 8)]),
            layout("s", 16, &[("a", 0, 4)]),
        ];
        for other in others {
            assert_eq!(problems(&header, &rust, std::slice::from_ref(&other)).len(), 1, "{other:?}");
        }
        let expected = "layout s: 16 bytes: a 0+4 in C and 16 bytes: a 0+4, b 8+8 in Rust";
        assert_eq!(problems(&header, &rust, &[layout("s", 16, &[("a", 0, 4)])]), [expected]);
    }

    #[test]
    fn structs_of_one_side_alone_are_found() {
        let (header, known) = ([item("s", &["uint8_t a"])], [layout("s", 1, &[("a", 0, 1)])]);
        assert_eq!(problems(&header, &[], &known), ["layout s: this test has no such struct in Rust"]);
        assert_eq!(problems(&[], &known, &[]), ["layout s: C does not have it"]);
    }

    #[test]
    fn a_header_that_does_not_compile_is_found() {
        let checks = compare(&[], &[], Err("cc failed".to_string()));
        assert_eq!(checks, [("header compiled as C99 with no warning".to_string(), Err("cc failed".to_string()))]);
    }
}
