//! Nothing in the build checks the declarations for Rust and for C against what the library
//! exports, so this reads all three and compares the names and the types. What the functions
//! give is compared by the other tests.

use std::collections::BTreeMap;
use std::path::{Path, PathBuf};

/// The exported functions by name: the types of their parameters as C has them, then of the
/// result.
type Declared = BTreeMap<String, Vec<&'static str>>;

/// What a parameter of this type is in C, a slice being two of them.
fn in_c(words: &str) -> &'static [&'static str] {
    match words {
        "&[u8]" => &["const uint8_t *", "size_t"],
        "&mut [u8]" => &["uint8_t *", "size_t"],
        "*const u8" | "const uint8_t *" => &["const uint8_t *"],
        "*mut u8" | "uint8_t *" => &["uint8_t *"],
        "&mut usize" | "*mut usize" | "size_t *" => &["size_t *"],
        "usize" | "size_t" => &["size_t"],
        "u8" | "uint8_t" => &["uint8_t"],
        "u16" | "uint16_t" => &["uint16_t"],
        _ => panic!("a type that this test does not know: {words:?}"),
    }
}

/// The text that stands there; of a folder all of it.
fn text(path: &Path) -> String {
    if path.is_file() {
        return std::fs::read_to_string(path).unwrap();
    }
    let entries = std::fs::read_dir(path).unwrap_or_else(|e| panic!("{path:?}: {e}"));
    let mut paths: Vec<PathBuf> = entries.map(|entry| entry.unwrap().path()).collect();
    paths.sort();
    paths.iter().map(|path| text(path)).collect()
}

/// The functions that a text declares after this mark: the name, the parameters, and what
/// follows.
fn declared<'t>(text: &'t str, mark: &'t str) -> impl Iterator<Item = (&'t str, &'t str, &'t str)> {
    text.split(mark).skip(1).map(|rest| {
        let (name, rest) = rest.split_once('(').unwrap();
        let (parameters, rest) = rest.split_once(')').unwrap();
        (name, parameters, rest)
    })
}

/// What the functions of a text in Rattle or in Rust are in C.
fn in_rust(text: &str, mark: &str) -> Declared {
    let functions = declared(text, mark).map(|(name, parameters, rest)| {
        let parameters = parameters.split(',').map(str::trim);
        let named = parameters.filter(|parameter| !parameter.is_empty());
        let types = named.map(|parameter| parameter.split_once(": ").unwrap().1);
        let result = rest.split_once("-> ").unwrap().1;
        let result = result.split([' ', ';', '\n']).next().unwrap();
        let all = types.chain([result]).flat_map(in_c).copied();
        (format!("rauntiko_{name}"), all.collect())
    });
    functions.collect()
}

/// What the functions of the header are; each gives a byte.
fn in_header(text: &str) -> Declared {
    let functions = declared(text, "\nuint8_t rauntiko_").map(|(name, parameters, rest)| {
        assert!(rest.starts_with(';'), "{name}");
        let is_name = |c: char| c.is_ascii_alphanumeric() || c == '_';
        let types = parameters.split(',');
        let types = types.map(|parameter| parameter.trim().trim_end_matches(is_name).trim());
        let all = types.chain(["uint8_t"]).flat_map(in_c).copied();
        (format!("rauntiko_{name}"), all.collect())
    });
    functions.collect()
}

#[test]
fn rust_and_c_declare_what_the_library_exports() {
    let root = Path::new(env!("CARGO_MANIFEST_DIR")).join("..");
    let library = text(&root.join("crates/library/src"));
    let exported = in_rust(&library, "pub extern \"C\" fn rauntiko_");
    assert!(exported.len() >= 3, "{exported:?}");
    let rust = text(&root.join("rust/src/sys.rs"));
    assert_eq!(in_rust(&rust, "    fn rauntiko_"), exported);
    let header = text(&root.join("include/rauntiko.h"));
    assert_eq!(in_header(&header), exported);
}
