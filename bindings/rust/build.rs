//! Links libstandplan.a: that of this repository, or the one in the folder that STANDPLAN_LIB_DIR names.
use std::{env, path::Path, path::PathBuf, process::exit};

fn main() {
    println!("cargo:rerun-if-env-changed=STANDPLAN_LIB_DIR");
    let folder = match env::var_os("STANDPLAN_LIB_DIR") {
        Some(folder) => PathBuf::from(folder),
        None => Path::new(env!("CARGO_MANIFEST_DIR")).join("../../target/staticlib"),
    };
    let library = folder.join("libstandplan.a");
    println!("cargo:rerun-if-changed={}", library.display());
    if !library.is_file() {
        eprintln!("The library of the planner is not built: there is no {}.", library.display());
        eprintln!("The command `tools/library`, in the root of the planner's repository, proves and builds it.");
        eprintln!("STANDPLAN_LIB_DIR names another folder to take it from, as lib below the PREFIX of `tools/library --install PREFIX`.");
        exit(1);
    }
    println!("cargo:rustc-link-search=native={}", folder.display());
    println!("cargo:rustc-link-lib=static=standplan");
}
