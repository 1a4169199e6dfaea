//! Links libmesh_c.a, of `target/staticlib` of the repository or of the folder in LEMIKANTO_LIB. It proves and builds nothing: where the
//! repository's is missing, or older than a file that it is made of, it ends at once and says what to run. A folder that the caller names is
//! taken as it is.
use std::env;
use std::fs;
use std::io;
use std::path::{Path, PathBuf};
use std::time::SystemTime;

const ARCHIVE: &str = "libmesh_c.a";

fn main() {
    if let Err(fault) = link() {
        eprintln!("{fault}");
        std::process::exit(1);
    }
}

fn link() -> Result<(), String> {
    println!("cargo:rerun-if-changed=build.rs");
    println!("cargo:rerun-if-env-changed=LEMIKANTO_LIB");
    let folder = match env::var_os("LEMIKANTO_LIB") {
        Some(folder) => named(Path::new(&folder))?,
        None => repositorys()?,
    };
    println!("cargo:rerun-if-changed={}", folder.join(ARCHIVE).display());
    println!("cargo:rustc-link-search=native={}", folder.display());
    println!("cargo:rustc-link-lib=static=mesh_c");
    Ok(())
}

fn named(folder: &Path) -> Result<PathBuf, String> {
    let folder = folder.canonicalize().map_err(|e| format!("LEMIKANTO_LIB: {e}"))?;
    let archive = folder.join(ARCHIVE);
    if archive.exists() {
        Ok(folder)
    } else {
        Err(format!("LEMIKANTO_LIB: {} is missing", archive.display()))
    }
}

fn repositorys() -> Result<PathBuf, String> {
    let here = env::var_os("CARGO_MANIFEST_DIR").ok_or("cargo names no folder of the crate")?;
    let root = Path::new(&here).join("../..").canonicalize().map_err(|e| format!("the repository's root: {e}"))?;
    let folder = root.join("target/staticlib");
    let archive = folder.join(ARCHIVE);
    let run = format!("run tools/native-staticlib mesh_c in {}, which proves the library and builds it (some minutes)", root.display());
    let Ok(built) = archive.metadata().and_then(|m| m.modified()) else {
        return Err(format!("{} is missing: {run}", archive.display()));
    };
    for made_of in ["crates", "crates.txt"] {
        let made_of = root.join(made_of);
        println!("cargo:rerun-if-changed={}", made_of.display());
        if let Some(file) = newer(&made_of, built, 0).map_err(|e| format!("{}: {e}", made_of.display()))? {
            return Err(format!("{} is older than {}: {run}", archive.display(), file.display()));
        }
    }
    Ok(folder)
}

/// A file here or in a folder below that is newer. The time of a folder does not count, nor what `rt` makes: a crate's `out`, two folders down.
fn newer(path: &Path, built: SystemTime, deep: usize) -> io::Result<Option<PathBuf>> {
    let meta = fs::symlink_metadata(path)?;
    if meta.is_dir() {
        if deep == 2 && path.ends_with("out") {
            return Ok(None);
        }
        for entry in fs::read_dir(path)? {
            if let Some(file) = newer(&entry?.path(), built, deep + 1)? {
                return Ok(Some(file));
            }
        }
        return Ok(None);
    }
    Ok((meta.is_file() && meta.modified()? > built).then(|| path.to_path_buf()))
}
