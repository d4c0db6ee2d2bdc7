//! Finds goko's four files and lets the crate include them where they lie, unchanged: in the
//! directory that TEAKPOOL_GOKO_SRC names, else in shared/docs/src beside the repository. Of its
//! tree.rs the text of `internal_index` is taken, unchanged as well. Where they are in neither, the
//! crate is built without them (`no_goko`).

use std::path::{Path, PathBuf};
use std::{env, fs};

const FILES: [&str; 4] = ["tracker", "categorical", "dirichlet", "baseline"];
const VARIABLE: &str = "TEAKPOOL_GOKO_SRC";

fn main() {
    println!("cargo:rustc-check-cfg=cfg(no_goko)");
    println!("cargo:rerun-if-changed=build.rs");
    println!("cargo:rerun-if-env-changed={}", VARIABLE);
    let beside = Path::new(&env::var("CARGO_MANIFEST_DIR").unwrap()).join("../../../shared/docs/src");
    let source = env::var_os(VARIABLE).map_or(beside, PathBuf::from);
    let folder = source.join("goko/src/plugins/discrete");
    let paths = FILES.map(|name| folder.join(name).with_extension("rs"));
    let tree = source.join("goko/src/covertree/tree.rs");
    for path in paths.iter().chain([&tree]) {
        println!("cargo:rerun-if-changed={}", path.display());
    }
    if paths.iter().chain([&tree]).all(|path| path.is_file()) {
        println!("cargo:present=1");
        let modules: String = FILES.iter().zip(&paths).map(|(name, path)| module(name, path)).collect();
        let out = PathBuf::from(env::var("OUT_DIR").unwrap());
        fs::write(out.join("modules.rs"), modules).unwrap();
        fs::write(out.join("internal_index.rs"), internal_index(&tree)).unwrap();
    } else {
        println!("cargo:rustc-cfg=no_goko");
        println!("cargo:warning=goko's sources are not there ({} or shared/docs/src beside the repository): built without goko", VARIABLE);
    }
}

/// The block of goko's tree.rs that has `internal_index`, and nothing else.
fn internal_index(tree: &Path) -> String {
    let text = fs::read_to_string(tree).unwrap();
    let lines = text.lines().skip_while(|line| *line != "impl<D: PointCloud> CoverTreeParameters<D> {");
    let mut block: Vec<&str> = lines.take_while(|line| *line != "}").collect();
    assert!(
        block.iter().any(|line| line.contains("fn internal_index(")),
        "{} has no internal_index",
        tree.display()
    );
    block.push("}\n");
    block.join("\n")
}

fn module(name: &str, path: &Path) -> String {
    let path = path.canonicalize().unwrap();
    format!("#[path = {:?}]\npub mod {};\n", path.display().to_string(), name)
}
