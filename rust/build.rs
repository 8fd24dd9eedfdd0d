// Links the archive of the proved library: libgrader.a or libbackoff.a, in the folder that BACKOFF_LIB_DIR names, else where `./setup archive` leaves it.
// Takes the sentences for the refusals from the header.
use std::env::var_os;
use std::fs;
use std::path::PathBuf;
use std::process::exit;

fn main() {
    link_archive();
    write_reasons();
}

fn link_archive() {
    println!("cargo:rerun-if-env-changed=BACKOFF_LIB_DIR");
    let given = var_os("BACKOFF_LIB_DIR").filter(|folder| !folder.is_empty());
    let folder = given.map_or_else(own_folder, |folder| from_caller(folder.into()));
    let name = ["grader", "backoff"].into_iter().find(|name| folder.join(format!("lib{name}.a")).is_file());
    let Some(name) = name else {
        fail(&format!(
            "no libgrader.a and no libbackoff.a in {}: run `./setup archive` first, or set BACKOFF_LIB_DIR to the folder that has one of them",
            folder.display()
        ));
    };
    println!("cargo:rerun-if-changed={}", folder.join(format!("lib{name}.a")).display());
    println!("cargo:rustc-link-search=native={}", folder.display());
    println!("cargo:rustc-link-lib=static={name}");
}

fn fail(sentence: &str) -> ! {
    eprintln!("{sentence}");
    exit(1)
}

// The lines between the braces of `backoff_reason` are string literals, in Rust as in C.
fn write_reasons() {
    let header = repository().join("include/backoff.h");
    println!("cargo:rerun-if-changed={}", header.display());
    let text = fs::read_to_string(&header).unwrap_or_else(|error| fail(&format!("{}: {error}", header.display())));
    let reasons = text.split_once("reasons[] = {").and_then(|(_, rest)| rest.split_once("};")).expect("the header has backoff_reason").0;
    let out = PathBuf::from(var_os("OUT_DIR").expect("cargo sets OUT_DIR"));
    fs::write(out.join("reasons.rs"), format!("&[{reasons}]")).expect("OUT_DIR can be written");
}

// A folder that is named from where cargo was called; the script itself runs in the crate's folder.
fn from_caller(folder: PathBuf) -> PathBuf {
    if folder.is_absolute() {
        return folder;
    }
    println!("cargo:rerun-if-env-changed=PWD");
    PathBuf::from(var_os("PWD").unwrap_or_default()).join(folder)
}

fn own_folder() -> PathBuf {
    repository().join("target/staticlib")
}

// Asked when the script runs, so that a copy of the repository has its own archive and header.
fn repository() -> PathBuf {
    PathBuf::from(var_os("CARGO_MANIFEST_DIR").expect("cargo sets CARGO_MANIFEST_DIR")).join("..")
}
