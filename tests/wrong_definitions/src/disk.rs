//! Files read, written and copied, with errors that name the path.

use std::fs;
use std::io;
use std::path::Path;

pub fn failed<T>(what: &Path, e: io::Error) -> Result<T, String> {
    Err(format!("{}: {e}", what.display()))
}

pub fn read(path: &Path) -> Result<String, String> {
    fs::read_to_string(path).or_else(|e| failed(path, e))
}

pub fn write(path: &Path, text: &str) -> Result<(), String> {
    let made =
        fs::create_dir_all(path.parent().unwrap_or(path)).and_then(|()| fs::write(path, text));
    made.or_else(|e| failed(path, e))
}

pub fn copy_dir(from: &Path, to: &Path) -> Result<(), String> {
    for entry in fs::read_dir(from).or_else(|e| failed(from, e))? {
        let path = entry.or_else(|e| failed(from, e))?.path();
        let copied = to.join(path.file_name().unwrap_or_default());
        if path.is_dir() {
            copy_dir(&path, &copied)?;
            continue;
        }
        write(&copied, &read(&path)?)?;
    }
    Ok(())
}
