//! Tells the program whether the oracle was built with goko's files.

fn main() {
    println!("cargo:rustc-check-cfg=cfg(no_goko)");
    if std::env::var_os("DEP_GOKO_PRESENT").is_none() {
        println!("cargo:rustc-cfg=no_goko");
    }
}
