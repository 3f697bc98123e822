//! writes each source file, unchanged and followed by its probe, where
//! lib.rs includes it. a probe sits in the same module as the source and so
//! reaches its private items.

use std::path::Path;
use std::{env, fs};

fn main() {
    let oracle = Path::new(&env::var("CARGO_MANIFEST_DIR").unwrap()).join("..");
    let out = env::var("OUT_DIR").unwrap();
    let mut modules = String::new();
    for (name, probe) in [("dsp_voices", "voices"), ("dsp_mixer", "mixer")] {
        let source = oracle.join(format!("source/{name}.rs"));
        let probe = oracle.join(format!("probes/{probe}.rs"));
        let both = Path::new(&out).join(format!("{name}.rs"));
        fs::write(&both, [fs::read(&source).unwrap(), fs::read(&probe).unwrap()].concat()).unwrap();
        modules += &format!("#[path = {both:?}]\npub mod {name};\n");
        println!("cargo:rerun-if-changed={}", source.display());
        println!("cargo:rerun-if-changed={}", probe.display());
    }
    fs::write(Path::new(&out).join("services.rs"), modules).unwrap();
}
