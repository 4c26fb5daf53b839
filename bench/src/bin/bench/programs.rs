//! The two desk programs as processes: the sheet from a file, the frames to a file, both in memory where the system has
//! such files.

use std::fs::{self, File, OpenOptions};
use std::io;
use std::path::{Path, PathBuf};
use std::process::{self, Command};
use std::time::Instant;

/// Files of one run, removed at its end.
pub struct Files {
    folder: PathBuf,
}

impl Files {
    pub fn new() -> io::Result<Self> {
        let memory = Path::new("/dev/shm");
        let parent = if memory.is_dir() { memory.to_path_buf() } else { std::env::temp_dir() };
        let folder = parent.join(format!("planner-bench-{}", process::id()));
        fs::create_dir(&folder)?;
        fs::write(folder.join("empty"), [])?;
        Ok(Files { folder })
    }

    pub fn put_sheet(&self, sheet: &[u8]) -> io::Result<()> {
        fs::write(self.sheet(), sheet)
    }

    fn sheet(&self) -> PathBuf {
        self.folder.join("sheet")
    }

    fn input(&self, input: Input) -> PathBuf {
        match input {
            Input::Sheet => self.sheet(),
            Input::Empty => self.folder.join("empty"),
        }
    }

    fn written(&self) -> PathBuf {
        self.folder.join("written")
    }
}

impl Drop for Files {
    fn drop(&mut self) {
        // Nothing more can be done about a folder that does not go.
        let _ = fs::remove_dir_all(&self.folder);
    }
}

/// What a program is given: the sheet that was put, or an empty one.
#[derive(Clone, Copy)]
pub enum Input {
    Sheet,
    Empty,
}

pub struct Program(PathBuf);

impl Program {
    pub fn new(path: PathBuf) -> Self {
        Program(path)
    }

    fn run(&self, sheet: File, written: File) -> io::Result<()> {
        // The programs have no exit status of their own; a signal or a panic is a failure all the same.
        let status = Command::new(&self.0).stdin(sheet).stdout(written).status()?;
        if status.success() {
            Ok(())
        } else {
            Err(io::Error::other(format!("{} ended with {status}", self.0.display())))
        }
    }

    /// What the program writes for the sheet that was put.
    pub fn written(&self, files: &Files) -> io::Result<Vec<u8>> {
        self.run(File::open(files.sheet())?, File::create(files.written())?)?;
        fs::read(files.written())
    }

    /// Microseconds from the start of the program to its end. It writes over what was written before, so that the
    /// system need not find memory for the file.
    pub fn time(&self, files: &Files, input: Input) -> io::Result<f64> {
        let sheet = File::open(files.input(input))?;
        let written = OpenOptions::new().write(true).create(true).truncate(false).open(files.written())?;
        let start = Instant::now();
        self.run(sheet, written)?;
        Ok(start.elapsed().as_secs_f64() * 1e6)
    }
}
