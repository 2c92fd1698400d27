//! Says where libsulderko is: in the folder that SULDERKO_LIB_DIR names, else in `bin` of the
//! checkout that holds this crate, else where the linker looks.
use std::env;
use std::path::PathBuf;

/// The folder with the library, where one is known.
fn folder() -> Option<PathBuf> {
    if let Some(named) = env::var_os("SULDERKO_LIB_DIR") {
        return Some(named.into());
    }
    let crate_folder = PathBuf::from(env::var_os("CARGO_MANIFEST_DIR")?);
    let built = crate_folder.ancestors().nth(3)?.join("bin");
    built.join("libsulderko.a").is_file().then_some(built)
}

fn main() {
    println!("cargo:rerun-if-env-changed=SULDERKO_LIB_DIR");
    println!("cargo:rerun-if-env-changed=SULDERKO_STATIC");
    let kind = match env::var_os("SULDERKO_STATIC") {
        Some(_) => "static",
        None => "dylib",
    };
    println!("cargo:rustc-link-lib={kind}=sulderko");
    if let Some(folder) = folder() {
        println!("cargo:rustc-link-search=native={}", folder.display());
        println!("cargo:lib_dir={}", folder.display());
    }
}
