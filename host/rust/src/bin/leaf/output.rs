//! Standard output, and files that are whole or not there.
use crate::Failure;
use std::fs::{self, File};
use std::io::{self, BufWriter, Write};
use std::path::Path;

/// Writes to standard output. A reader that goes away early (`leaf sheet .. | head`) is no failure.
pub fn print(bytes: &[u8]) -> Result<(), Failure> {
    let mut out = io::stdout().lock();
    match out.write_all(bytes).and_then(|()| out.flush()) {
        Err(wrong) if wrong.kind() != io::ErrorKind::BrokenPipe => Err(Failure::new("standard output", wrong)),
        _ => Ok(()),
    }
}

/// Writes a file beside its place and moves it there once it is whole.
pub fn write_whole(path: &Path, write: impl FnOnce(&mut BufWriter<File>) -> Result<(), Box<dyn std::error::Error>>) -> Result<(), Failure> {
    let mut name = path.file_name().map(std::ffi::OsStr::to_owned).ok_or_else(|| Failure::new(path.display(), "this names no file"))?;
    name.push(format!(".{}.part", std::process::id()));
    let beside = path.with_file_name(name);
    let result = File::create(&beside).map_err(Into::into).and_then(|file| {
        let mut file = BufWriter::new(file);
        write(&mut file)?;
        file.into_inner().map_err(io::IntoInnerError::into_error)?.sync_all()?;
        Ok(fs::rename(&beside, path)?)
    });
    result.map_err(|wrong: Box<dyn std::error::Error>| {
        let _ = fs::remove_file(&beside);
        Failure::new(path.display(), wrong)
    })
}
