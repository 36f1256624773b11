//! Links the proved library, which `tools/archive` writes to `target/staticlib` of this repository. `ROBIJAN_LIBRARY` names another
//! folder that has `librobijan.a`.

fn main() {
    println!("cargo:rerun-if-env-changed=ROBIJAN_LIBRARY");
    let folder = match std::env::var_os("ROBIJAN_LIBRARY") {
        Some(folder) => std::path::PathBuf::from(folder),
        None => std::path::Path::new(env!("CARGO_MANIFEST_DIR")).join("../../target/staticlib"),
    };
    let archive = folder.join("librobijan.a");
    println!("cargo:rerun-if-changed={}", archive.display());
    if !archive.is_file() {
        eprintln!(
            "{} is missing: run `tools/archive` in the repository, or name the folder that has it in ROBIJAN_LIBRARY",
            archive.display()
        );
        std::process::exit(1);
    }
    println!("cargo:rustc-link-search=native={}", folder.display());
    println!("cargo:rustc-link-lib=static=robijan");
}
