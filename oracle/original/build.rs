//! Cuts the shown functions out of value.rs, byte for byte, into `$OUT_DIR/cut.rs`. Nothing of
//! value.rs is kept in the repository.

use std::path::{Path, PathBuf};
use std::{env, fs};

/// Where value.rs lies, from the repository's root, unless JINGLE_VALUE_RS says otherwise.
const VALUE_RS: &str = "../shared/docs/src/jingle/src/analysis/valuation/simple/value.rs";

/// The items that are cut, by how their first line begins.
const ITEMS: [&str; 15] = [
    "trait Simplify {",
    "fn mask_for_size(",
    "impl Simplify for AddExpr {",
    "impl Simplify for SubExpr {",
    "impl Simplify for MulExpr {",
    "impl Simplify for XorExpr {",
    "impl Simplify for OrExpr {",
    "impl Simplify for IntLeftShiftExpr {",
    "impl Simplify for IntRightShiftExpr {",
    "impl Simplify for IntSignedRightShiftExpr {",
    "impl Simplify for SignExtend {",
    "impl Simplify for IntCarry {",
    "impl Simplify for IntSCarry {",
    "impl Simplify for IntSBorrow {",
    "impl Simplify for Int2CompExpr {",
];

fn main() {
    println!("cargo::rustc-check-cfg=cfg(value_rs)");
    println!("cargo::rerun-if-env-changed=JINGLE_VALUE_RS");
    let root = Path::new(&env::var("CARGO_MANIFEST_DIR").expect("set by cargo")).join("../..");
    let named = env::var_os("JINGLE_VALUE_RS").map(PathBuf::from);
    let path = root.join(named.unwrap_or_else(|| VALUE_RS.into()));
    println!("cargo::rerun-if-changed={}", path.display());
    let Ok(text) = fs::read_to_string(&path) else {
        println!(
            "cargo::warning=no value.rs at {}: the model answers alone (JINGLE_VALUE_RS names the file)",
            path.display()
        );
        return;
    };
    let mut cut = String::new();
    for item in ITEMS {
        match item_at(&text, item) {
            Some(found) => cut.push_str(found),
            None => println!("cargo::error={} has no item that begins with '{item}'", path.display()),
        }
    }
    let out = Path::new(&env::var("OUT_DIR").expect("set by cargo")).join("cut.rs");
    fs::write(out, cut).expect("the build folder can be written");
    println!("cargo::rustc-cfg=value_rs");
}

/// An item at the left margin: from its first line to the line that closes it.
fn item_at<'a>(text: &'a str, begins: &str) -> Option<&'a str> {
    const CLOSED: &str = "\n}\n";
    let start = text.find(&format!("\n{begins}"))? + 1;
    let end = start + text[start..].find(CLOSED)? + CLOSED.len();
    Some(&text[start..end])
}
