//! Finds the source of the Rust in the folder that the variable RMQTT_SRC names, or else beside
//! the repository, and writes one `mod` item for each file that is compiled; and the one type that
//! is taken out of a file, byte for byte.

use std::path::{Path, PathBuf};
use std::{env, fs};

/// The modules, and their files in the folder of the source.
const MODULES: [(&str, &str); 4] = [
    ("topic", "rmqtt/src/topic.rs"),
    ("trie", "rmqtt/src/trie.rs"),
    ("retain", "rmqtt/src/retain.rs"),
    ("counter", "rmqtt-utils/src/counter.rs"),
];

/// The file that has `TimedValue`, and the lines from which and up to which it stands there.
const TYPES: &str = "rmqtt/src/types.rs";
const BEGINS: &str = "#[derive(Clone, Debug)]\npub struct TimedValue<V>(V, Option<Instant>);\n";
const ENDS: &str = "//impl<V> Eq for TimedValue<V> where V: Eq {}\n";

fn main() {
    println!("cargo:rerun-if-env-changed=RMQTT_SRC");
    let named = env::var_os("RMQTT_SRC").map(PathBuf::from);
    let folder = named.unwrap_or_else(|| PathBuf::from("../../../shared/docs/src"));
    let items: String = MODULES
        .iter()
        .map(|(module, file)| mod_item(module, &folder.join(file)))
        .collect();
    let out = env::var_os("OUT_DIR").expect("cargo sets OUT_DIR");
    let out = Path::new(&out);
    fs::write(out.join("modules.rs"), items).expect("OUT_DIR takes files");
    fs::write(out.join("timed_value.rs"), timed_value(&folder)).expect("OUT_DIR takes files");
}

/// The text of `TimedValue`.
fn timed_value(folder: &Path) -> String {
    let types = fs::read_to_string(folder.join(TYPES)).expect("types.rs is beside the others");
    let parts: Vec<&str> = types.split(BEGINS).collect();
    let [_, rest] = parts[..] else {
        panic!("TimedValue does not stand once in types.rs");
    };
    let (body, _) = rest.split_once(ENDS).expect("TimedValue ends");
    [BEGINS, body].concat()
}

/// The item that compiles `file` where it stands, byte for byte.
fn mod_item(module: &str, file: &Path) -> String {
    let file =
        fs::canonicalize(file).unwrap_or_else(|_| panic!("no {}: set RMQTT_SRC", file.display()));
    format!("#[path = {file:?}]\npub mod {module};\n")
}
