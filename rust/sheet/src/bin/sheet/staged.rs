//! Results in files and folders: written whole beside their places, which they then
//! take, all of them or none.

use crate::failure::Failure;
use std::fs::{self, OpenOptions};
use std::io::{self, ErrorKind, Write};
use std::path::{Path, PathBuf};

/// A result that is written whole under a hidden name beside its place.
pub struct Staged {
    path: PathBuf,
    part: PathBuf,
    /// A hidden name for what stands in its place and may be replaced, if anything
    /// does.
    old: Option<PathBuf>,
    force: bool,
}

impl Staged {
    /// A file.  An existing file is replaced only by `force`.
    pub fn file(path: &Path, bytes: &[u8], force: bool) -> Result<Self, Failure> {
        refuse_existing(path, force)?;
        if path.is_dir() {
            let what = format!("{} is a folder; expected a file", path.display());
            return Err(Failure::Trouble(what));
        }
        let staged = Self::beside(path, force)?;
        write_new(&staged.part, bytes).map_err(|error| trouble(path, &error))?;
        Ok(staged)
    }

    /// A folder of files.  An existing folder is replaced only by `force`, and only
    /// if it holds nothing but files of the same names.
    pub fn folder(path: &Path, files: &[(String, String)], force: bool) -> Result<Self, Failure> {
        refuse_existing(path, force)?;
        let staged = Self::beside(path, force)?;
        if staged.old.is_some() {
            refuse_other_files(path, files)?;
        }
        let part = &staged.part;
        let filled = fs::create_dir(part).and_then(|()| {
            files.iter().try_for_each(|(name, text)| write_new(&part.join(name), text.as_bytes()))
        });
        filled.map_err(|error| trouble(path, &error))?;
        Ok(staged)
    }

    fn beside(path: &Path, force: bool) -> Result<Self, Failure> {
        let part = hidden(path, "part")?;
        let old = exists(path).then(|| hidden(path, "old")).transpose()?;
        Ok(Staged { path: path.to_path_buf(), part, old, force })
    }

    /// Takes its place.  What stood there is set aside, and put back if the place
    /// cannot be taken.
    fn take_place(&self) -> io::Result<()> {
        let Some(old) = &self.old else { return self.take_free_place() };
        self.set_aside(old)?;
        fs::rename(&self.part, &self.path).or_else(|error| {
            self.put_back(old)?;
            Err(error)
        })
    }

    /// Takes a place where nothing stood, a file's without `force` only if nothing
    /// has come there meanwhile.
    fn take_free_place(&self) -> io::Result<()> {
        if self.force || self.part.is_dir() {
            return fs::rename(&self.part, &self.path);
        }
        match fs::hard_link(&self.part, &self.path) {
            Ok(()) => {
                let _ = fs::remove_file(&self.part);
                Ok(())
            }
            // A file system without hard links.
            Err(error) if error.kind() != ErrorKind::AlreadyExists && !exists(&self.path) => {
                fs::rename(&self.part, &self.path)
            }
            Err(error) => Err(error),
        }
    }

    /// Gives what stands in the place its hidden name.  A file keeps its own name,
    /// too, until it is replaced.
    fn set_aside(&self, old: &Path) -> io::Result<()> {
        match self.part.is_dir() {
            true => fs::rename(&self.path, old),
            false => fs::hard_link(&self.path, old).or_else(|_| fs::rename(&self.path, old)),
        }
    }

    fn put_back(&self, old: &Path) -> io::Result<()> {
        fs::rename(old, &self.path)?;
        // Where both were names of one file, both are still there.
        let _ = fs::remove_file(old);
        Ok(())
    }

    /// Leaves its place again to what stood there.
    fn leave_place(&self) -> io::Result<()> {
        fs::rename(&self.path, &self.part)?;
        self.old.as_ref().map_or(Ok(()), |old| self.put_back(old))
    }

    /// What was set aside is no longer needed; where it cannot be removed it stays
    /// under its hidden name.
    fn remove_old(&self) {
        if let Some(old) = &self.old {
            remove(old);
        }
    }
}

impl Drop for Staged {
    fn drop(&mut self) {
        remove(&self.part);
    }
}

/// All results take their places, and then the last step is made; where anything
/// fails, what stood in the places stands there again.  A pipe that nobody reads is
/// no failure.
pub fn place_all(
    results: &[Staged],
    last: impl FnOnce() -> Result<(), Failure>,
) -> Result<(), Failure> {
    for (count, result) in results.iter().enumerate() {
        if let Err(error) = result.take_place() {
            return Err(undone(&results[..count], trouble(&result.path, &error)));
        }
    }
    match last() {
        Ok(()) | Err(Failure::ClosedPipe) => {}
        Err(failure) => return Err(undone(results, failure)),
    }
    results.iter().for_each(Staged::remove_old);
    Ok(())
}

/// The failure for which results have left their places again, or that of leaving
/// them.
fn undone(results: &[Staged], mut failure: Failure) -> Failure {
    for result in results.iter().rev() {
        let Err(error) = result.leave_place() else { continue };
        let path = result.path.display();
        failure = Failure::Trouble(match &result.old {
            Some(old) => format!("cannot put {} back as {path}: {error}", old.display()),
            None => format!("cannot remove {path}: {error}"),
        });
    }
    failure
}

fn remove(path: &Path) {
    let _ = match path.is_dir() {
        true => fs::remove_dir_all(path),
        false => fs::remove_file(path),
    };
}

fn refuse_existing(path: &Path, force: bool) -> Result<(), Failure> {
    if !force && exists(path) {
        let what = format!("{} exists; --force replaces it", path.display());
        return Err(Failure::Trouble(what));
    }
    Ok(())
}

/// Whether something has this name, be it a link that leads nowhere.
fn exists(path: &Path) -> bool {
    fs::symlink_metadata(path).is_ok()
}

/// The existing folder holds nothing that the new one would not replace.
fn refuse_other_files(path: &Path, files: &[(String, String)]) -> Result<(), Failure> {
    let shown = path.display();
    let told = |error| Failure::Trouble(format!("cannot read {shown}: {error}"));
    if !path.is_dir() {
        return Err(Failure::Trouble(format!("{shown} is a file; expected a folder")));
    }
    for entry in fs::read_dir(path).map_err(told)? {
        let name = entry.map_err(told)?.file_name();
        if !files.iter().any(|(file, _)| name.to_str() == Some(file)) {
            let name = name.to_string_lossy();
            let what = format!("{shown} also holds {name}, which would be lost; not replaced");
            return Err(Failure::Trouble(what));
        }
    }
    Ok(())
}

/// A hidden name beside the target, this process's own.
fn hidden(path: &Path, what: &str) -> Result<PathBuf, Failure> {
    let name = path.file_name().ok_or_else(|| {
        Failure::Trouble(format!("{} cannot be written; name a file or folder", path.display()))
    })?;
    let name = format!(".{}.{what}-{}", name.to_string_lossy(), std::process::id());
    Ok(path.with_file_name(name))
}

fn write_new(path: &Path, bytes: &[u8]) -> io::Result<()> {
    let mut file = OpenOptions::new().write(true).create_new(true).open(path)?;
    file.write_all(bytes)?;
    file.sync_all()
}

fn trouble(path: &Path, error: &io::Error) -> Failure {
    Failure::Trouble(format!("cannot write {}: {error}", path.display()))
}
