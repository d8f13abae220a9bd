//! What the crate repeats of `include/x509.h`: structs are laid out as a C compiler lays them out, and the version and the algorithms are the header's.
use std::mem::{align_of, size_of, zeroed};
use std::path::Path;
use std::process::Command;
use std::{env, fs, ptr};

const HEADER: &str = include_str!("../../../include/x509.h");
const FOLDER: &str = concat!(env!("CARGO_MANIFEST_DIR"), "/../../include");

#[path = "../src/ffi/header.rs"]
mod header;

/// A struct of the header.
struct Layout {
    name: &'static str,
    size: usize,
    alignment: usize,
    /// Each field with its offset.
    fields: Vec<(&'static str, usize)>,
}

/// How the structs are laid out here.
macro_rules! layouts {
    ($($name:ident = $struct:ident {$($field:ident),* $(,)?})*) => {
        fn layouts() -> Vec<Layout> {
            vec![$({
                // SAFETY: a struct of the header has numbers, arrays of numbers and structs of numbers alone, which zeros are.
                let it: header::$struct = unsafe { zeroed() };
                let at = ptr::addr_of!(it) as usize;
                Layout {
                    name: stringify!($name),
                    size: size_of::<header::$struct>(),
                    alignment: align_of::<header::$struct>(),
                    fields: vec![$((stringify!($field), ptr::addr_of!(it.$field) as usize - at)),*],
                }
            }),*]
        }
    };
}

include!("header/structs.rs");

/// Its size, its alignment and its offsets in a line, as [`asking`] has them printed.
fn line(it: &Layout) -> String {
    let fields = it.fields.iter().map(|(name, at)| format!(" {name} {at}"));
    let front = format!("{} {} {}", it.name, it.size, it.alignment);
    fields.fold(front, |line, field| line + &field)
}

/// A program in C that prints a line for each struct.
fn asking(layouts: &[Layout]) -> String {
    let asked = layouts.iter().map(|it| {
        let name = it.name;
        let fields = it.fields.iter().map(|(field, _)| {
            format!("    printf(\" {field} %zu\", offsetof({name}, {field}));\n")
        });
        let front = format!("    printf(\"{name} %zu %zu\", sizeof({name}), _Alignof({name}));\n");
        fields.fold(front, |text, field| text + &field) + "    puts(\"\");\n"
    });
    let asked: String = asked.collect();
    format!(
        "#include <stdio.h>\n#include <x509.h>\n\nint main(void)\n{{\n{asked}    return 0;\n}}\n"
    )
}

/// What the program prints.
fn printed(program: &str) -> String {
    let folder = Path::new(env!("CARGO_TARGET_TMPDIR"));
    let (source, file) = (folder.join("layouts.c"), folder.join("layouts"));
    fs::write(&source, program).expect("a file");
    let compiler = env::var_os("CC").unwrap_or_else(|| "cc".into());
    let mut command = Command::new(compiler);
    command.args(["-std=c11", "-I", FOLDER, "-o"]);
    let ended = command.arg(&file).arg(&source).status();
    assert!(ended.expect("a C compiler").success());
    let printed = Command::new(&file).output().expect("a program").stdout;
    String::from_utf8(printed).expect("a text")
}

#[test]
fn structs_are_laid_out_as_in_c() {
    let layouts = layouts();
    assert_eq!(layouts.len(), HEADER.matches("typedef struct {").count());
    let lines: Vec<String> = layouts.iter().map(line).collect();
    let printed = printed(&asking(&layouts));
    assert_eq!(lines, printed.lines().collect::<Vec<_>>());
}

/// The parts of a text that stand between two others.
fn between<'a>(text: &'a str, before: &str, after: &str) -> Vec<&'a str> {
    let parts = text.split(before).skip(1);
    parts
        .filter_map(|part| Some(part.split_once(after)?.0))
        .collect()
}

#[test]
fn the_version_is_that_of_the_header() {
    let number = |part: &str| -> u32 {
        let found = between(HEADER, &format!("\n#define X509_VERSION_{part} "), "\n");
        found[0].parse().expect("a number")
    };
    let told = (number("MAJOR"), number("MINOR"), number("PATCH"));
    assert_eq!(x509_rattle::library_version(), told);
}

#[test]
fn algorithms_are_those_of_the_header() {
    let written = include_str!("../src/algorithm.rs");
    let constants = between(written, "pub const ", ";\n");
    assert_eq!(
        constants.len(),
        between(HEADER, "#define X509_ALGORITHM_", "\n").len()
    );
    for constant in constants {
        let (name, octets) = constant.split_once(": &[u8] =").expect("octets");
        let octets = octets.trim_start().strip_prefix('b').expect("octets");
        assert!(
            HEADER.contains(&format!("#define X509_ALGORITHM_{name} {octets}")),
            "{name}"
        );
    }
}
