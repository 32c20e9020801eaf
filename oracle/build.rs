//! Lays the driver's own files, unedited, beside our stand-ins, and names them as module `cmap`.

use std::{
    env, fs,
    path::{Path, PathBuf},
    process::exit,
};

#[path = "build/sha256.rs"]
mod sha256;

/// Files that a measuring build may have marked in the target folder; see `coverage`.
const MARKED: &str = "ORACLE_MARKED_SOURCES";

const SOURCES: &str = "ORACLE_RUST_SOURCES";

fn main() {
    let oracle = PathBuf::from(env::var("CARGO_MANIFEST_DIR").unwrap());
    let repository = oracle.parent().unwrap();
    let sources =
        repository.join(env::var(SOURCES).unwrap_or_else(|_| "../shared/docs/src".to_string()));
    let marked = env::var(MARKED).ok().map(|folder| repository.join(folder));
    let tree = PathBuf::from(env::var("OUT_DIR").unwrap()).join("driver");

    println!("cargo:rerun-if-env-changed={SOURCES}");
    println!("cargo:rerun-if-env-changed={MARKED}");
    println!("cargo:rerun-if-changed=build.rs");
    println!("cargo:rerun-if-changed=build/sha256.rs");

    let sums = oracle.join("sources.sha256");
    for line in String::from_utf8(read(&sums)).unwrap().lines() {
        let Some((sum, name)) = line.split_once("  ") else {
            stop(&format!("{}: not `sum  file`: {line}", sums.display()));
        };
        let source = sources.join(name);
        let bytes = read(&source);
        if sha256::hexadecimal(&bytes) != sum {
            stop(&format!(
                "{} is not the file of mongodb 3.9.1 that sources.sha256 names",
                source.display()
            ));
        }
        // `cmap.rs` goes beside its children because it is reached by a path attribute.
        let place = tree.join(name.strip_prefix("src/cmap/").unwrap_or("cmap.rs"));
        match marked.as_ref().map(|folder| folder.join(name)) {
            Some(marked) if marked.exists() => write(&place, &read(&marked)),
            _ => {
                write(&place, &bytes);
                if read(&place) != bytes {
                    stop(&format!(
                        "{} differs from {}",
                        place.display(),
                        source.display()
                    ));
                }
            }
        }
    }
    lay(&oracle.join("stand_ins/cmap"), &tree);

    let mut module = format!(
        "#[allow(dead_code, unused_imports, clippy::all)]\n#[path = {:?}]\nmod cmap;\n",
        tree.join("cmap.rs").display().to_string()
    );
    if marked.is_some() {
        let marks = oracle.join("stand_ins/marks.rs").display().to_string();
        module += &format!("#[path = {marks:?}]\nmod marks;\n");
    }
    write(&tree.join("tree.rs"), module.as_bytes());
}

/// Copies a folder of stand-ins into the tree.
fn lay(from: &Path, to: &Path) {
    let entries = fs::read_dir(from)
        .unwrap_or_else(|e| stop(&format!("cannot list {}: {e}", from.display())));
    for entry in entries {
        let entry = entry.unwrap().path();
        let place = to.join(entry.file_name().unwrap());
        if entry.is_dir() {
            lay(&entry, &place);
        } else {
            write(&place, &read(&entry));
        }
    }
}

fn read(path: &Path) -> Vec<u8> {
    println!("cargo:rerun-if-changed={}", path.display());
    fs::read(path).unwrap_or_else(|e| stop(&format!("cannot open {}: {e}", path.display())))
}

/// Leaves a file alone that already has these bytes, so that cargo does not build it again.
fn write(path: &Path, bytes: &[u8]) {
    if fs::read(path).is_ok_and(|old| old == bytes) {
        return;
    }
    let written = fs::create_dir_all(path.parent().unwrap()).and_then(|()| fs::write(path, bytes));
    if let Err(e) = written {
        stop(&format!("cannot write {}: {e}", path.display()));
    }
}

fn stop(message: &str) -> ! {
    eprintln!("oracle: {message}");
    exit(1)
}
