//! The command-line program: `tevalumi solve FILE`, `tevalumi audit FILE`, `tevalumi why FILE`,
//! `tevalumi keep FILE -o PLAN.tev`, `tevalumi what-if FILE`, `tevalumi undo FILE JOURNAL`,
//! `tevalumi replay FILE JOURNAL`, `tevalumi night`, `tevalumi night FILE`.

mod cli;

use std::ffi::{OsStr, OsString};
use std::fs::{self, File, OpenOptions};
use std::io::{self, ErrorKind, Read, Seek, SeekFrom, Write};
use std::path::{Path, PathBuf};
use std::process::{Command, ExitCode, Stdio};

fn main() -> ExitCode {
    let args: Vec<OsString> = std::env::args_os().skip(1).collect();
    let outcome = cli::run(&args, &Disk);
    let _ = io::stderr().write_all(outcome.err.as_bytes());
    let mut out = io::stdout();
    match out
        .write_all(outcome.out.as_bytes())
        .and_then(|()| out.flush())
    {
        // A reader that has gone away (`tevalumi night | head`) is no failure of ours.
        Err(error) if error.kind() != ErrorKind::BrokenPipe => {
            let _ = writeln!(
                io::stderr(),
                "tevalumi: standard output: can't be written: {error}"
            );
            ExitCode::from(cli::WRONG)
        }
        _ => ExitCode::from(outcome.exit),
    }
}

struct Disk;

impl cli::Files for Disk {
    fn read(&self, file: &OsStr, most: usize) -> io::Result<Vec<u8>> {
        match file == "-" {
            true => at_most(io::stdin(), most),
            false => at_most(File::open(file)?, most),
        }
    }

    /// By Debian's gzip. It reads a file without a name, so that no thread is needed to feed it.
    fn unpack(&self, packed: &[u8], most: usize) -> io::Result<Vec<u8>> {
        let name = format!("tevalumi-{}.gz", std::process::id());
        let name = std::env::temp_dir().join(name);
        let mut options = OpenOptions::new();
        let mut file = options
            .read(true)
            .write(true)
            .create_new(true)
            .open(&name)?;
        fs::remove_file(&name)?;
        file.write_all(packed)?;
        file.seek(SeekFrom::Start(0))?;
        let mut gzip = Command::new("gzip");
        let gzip = gzip
            .arg("-dc")
            .stdin(file)
            .stdout(Stdio::piped())
            .stderr(Stdio::null());
        let mut gzip = gzip.spawn()?;
        let out = gzip.stdout.take().ok_or(ErrorKind::BrokenPipe)?;
        let unpacked = at_most(out, most);
        if unpacked.is_err() {
            let _ = gzip.kill();
        }
        let ended = gzip.wait()?;
        let unpacked = unpacked?;
        // An emulator can answer that it has started a program that isn't there.
        match (
            ended.success(),
            unpacked.is_empty() && ended.code() == Some(127),
        ) {
            (true, _) => Ok(unpacked),
            (_, true) => Err(ErrorKind::NotFound.into()),
            _ => Err(io::Error::other("the packed file is damaged")),
        }
    }

    /// To another name first, so that a power cut leaves the file that was there or the new one
    /// whole: over the old one, a write that stops could leave a plan that neither was.
    fn keep(&self, file: &OsStr, bytes: &[u8]) -> io::Result<()> {
        let file = &plain(Path::new(file))?;
        let name = file
            .file_name()
            .ok_or_else(|| io::Error::from(ErrorKind::InvalidInput))?;
        let mut new = OsString::from(".");
        new.push(name);
        new.push(format!(".{}.new", std::process::id()));
        let new = file.with_file_name(new);
        let kept = write(&new, bytes).and_then(|()| fs::rename(&new, file));
        if kept.is_err() {
            let _ = fs::remove_file(&new);
            return kept;
        }
        let folder = file.parent().filter(|folder| folder != &Path::new(""));
        File::open(folder.unwrap_or(Path::new(".")))?.sync_all()
    }
}

/// The plain file that a name stands for, or that it would become. A rename would put a file in the place
/// of a device or a link, so that `/dev/stdout` would be gone.
fn plain(file: &Path) -> io::Result<PathBuf> {
    let found = match fs::symlink_metadata(file) {
        Err(error) if error.kind() == ErrorKind::NotFound => return Ok(file.to_path_buf()),
        Ok(found) if found.is_symlink() => fs::canonicalize(file)?,
        Ok(_) => file.to_path_buf(),
        Err(error) => return Err(error),
    };
    match fs::symlink_metadata(&found)?.is_file() {
        true => Ok(found),
        false => Err(io::Error::other("it isn't a plain file")),
    }
}

/// Everything, or the error that it is too large, without reading further.
fn at_most(from: impl Read, most: usize) -> io::Result<Vec<u8>> {
    let mut bytes = Vec::new();
    from.take(most as u64 + 1).read_to_end(&mut bytes)?;
    match bytes.len() > most {
        true => Err(ErrorKind::FileTooLarge.into()),
        false => Ok(bytes),
    }
}

fn write(name: &Path, bytes: &[u8]) -> io::Result<()> {
    let mut file = File::create(name)?;
    file.write_all(bytes)?;
    file.sync_all()
}
