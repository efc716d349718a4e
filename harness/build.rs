//! Takes the source's files from the folder `FLURRY_SRC` (the crate's src/) and appends the drivers. The crate oz links the exports.
use std::path::Path;
use std::{env, fs};

fn main() {
    let src = env::var("FLURRY_SRC").expect("FLURRY_SRC: the folder that has flurry's node.rs");
    let out = env::var("OUT_DIR").unwrap();
    for (from, to, driver) in [
        ("reclaim.rs", "reclaim.rs", None),
        ("raw/mod.rs", "raw.rs", Some("drivers/raw.rs")),
        ("node.rs", "node.rs", Some("drivers/node.rs")),
        ("iter/traverser.rs", "traverser.rs", Some("drivers/traverser.rs")),
    ] {
        let from = Path::new(&src).join(from);
        println!("cargo:rerun-if-changed={}", from.display());
        let mut text = fs::read_to_string(&from).unwrap_or_else(|e| panic!("{}: {e}", from.display()));
        if let Some(driver) = driver {
            println!("cargo:rerun-if-changed={driver}");
            text.push('\n');
            text.push_str(&fs::read_to_string(driver).unwrap());
        }
        fs::write(Path::new(&out).join(to), text).unwrap();
    }
    println!("cargo:rerun-if-env-changed=FLURRY_SRC");
}
