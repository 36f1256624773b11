//! Writes the stored cases. `cases DIR` writes the files of the folder `crates`
//! to DIR; with `--variant NAME` the outputs are those of a wrong variant.
//! `cases DIR --every-variant` writes to DIR/NAME, for each wrong variant, the
//! outputs that it can change. `cases --variants` prints their names.

use reference::stored::{Cases, Stored};
use reference::variant::{wrong, Context, Variant};
use std::path::Path;
use std::process::ExitCode;
use std::{env, fs, io};

fn main() -> ExitCode {
    let arguments: Vec<String> = env::args().skip(1).collect();
    let arguments: Vec<&str> = arguments.iter().map(String::as_str).collect();
    let written = match arguments[..] {
        ["--variants"] => {
            for variant in wrong() {
                println!("{variant:?}");
            }
            Ok(())
        }
        [folder] => write_all(folder, Variant::Right),
        [folder, "--every-variant"] => write_variants(folder),
        [folder, "--variant", name] => match wrong().find(|wrong| name == format!("{wrong:?}")) {
            Some(wrong) => write_all(folder, wrong),
            None => Err(io::Error::other("no such variant")),
        },
        _ => Err(io::Error::other(
            "usage: cases DIR [--variant NAME | --every-variant] | --variants",
        )),
    };
    match written {
        Ok(()) => ExitCode::SUCCESS,
        Err(error) => {
            eprintln!("cases: {error}");
            ExitCode::FAILURE
        }
    }
}

fn write_all(folder: &str, variant: Variant) -> io::Result<()> {
    let cases = Cases::generate();
    let folder = Path::new(folder);
    write(folder, cases.inputs())?;
    write(folder, cases.outputs(Context::of(variant)))
}

fn write_variants(folder: &str) -> io::Result<()> {
    let cases = Cases::generate();
    for variant in wrong() {
        let folder = Path::new(folder).join(format!("{variant:?}"));
        write(&folder, cases.variant_outputs(Context::of(variant)))?;
    }
    Ok(())
}

fn write(folder: &Path, files: Vec<Stored>) -> io::Result<()> {
    for file in files {
        let path = folder.join(file.path);
        if let Some(parent) = path.parent() {
            fs::create_dir_all(parent)?;
        }
        fs::write(path, file.contents)?;
    }
    Ok(())
}
