//! Runs the reference's two listings on a folder of vectors: DIR/lister/NNN.in and DIR/fitter/NNN.in, each with what it is
//! to print in NNN.out, and the fitter's with what it is to print between free ends in NNN.free.

use crate::reference;
use std::fs;
use std::io;
use std::path::{Path, PathBuf};

/// The files of a folder that hold what is to be printed.
fn outputs(folder: &Path, kind: &str) -> io::Result<Vec<PathBuf>> {
    let mut found = Vec::new();
    for entry in fs::read_dir(folder)? {
        let path = entry?.path();
        if path.extension().is_some_and(|extension| extension == kind) {
            found.push(path);
        }
    }
    found.sort();
    Ok(found)
}

/// Whether there are vectors of this kind, and the reference prints what all of them have.
fn program(folder: &Path, kind: &str, list: fn(&[u8]) -> String) -> io::Result<bool> {
    let (mut agree, mut differ) = (0, 0);
    for output in outputs(folder, kind)? {
        let printed = list(&fs::read(output.with_extension("in"))?);
        if printed.as_bytes() == fs::read(&output)? {
            agree += 1;
        } else {
            differ += 1;
            println!("{} differs: the reference ends {:?}", output.display(), printed.lines().last().unwrap_or(""));
        }
    }
    println!("{}, {kind}: the reference agrees with {agree} and differs from {differ}", folder.display());
    Ok(agree > 0 && differ == 0)
}

/// True where there were vectors of every kind and all agreed.
pub fn run(folder: &Path) -> io::Result<bool> {
    let lister = program(&folder.join("lister"), "out", reference::lister)?;
    let fitter = program(&folder.join("fitter"), "out", reference::fitter)?;
    let free = program(&folder.join("fitter"), "free", reference::free_fitter)?;
    Ok(lister && fitter && free)
}
