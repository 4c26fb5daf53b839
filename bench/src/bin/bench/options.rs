//! The command line.

use std::env;
use std::path::PathBuf;

#[derive(Default)]
pub struct Options {
    pub quick: bool,
    pub only: Option<String>,
    pub tsv: Option<PathBuf>,
    pub check: Option<u64>,
}

pub const USAGE: &str = "bench [--quick] [--only WORD] [--tsv FILE] | bench --check N";

impl Options {
    pub fn read() -> Result<Self, String> {
        let mut options = Options::default();
        let mut words = env::args().skip(1);
        while let Some(word) = words.next() {
            let mut value = || words.next().ok_or(format!("{word} needs a value"));
            match word.as_str() {
                "--quick" => options.quick = true,
                "--only" => options.only = Some(value()?),
                "--tsv" => options.tsv = Some(value()?.into()),
                "--check" => options.check = Some(value()?.parse().map_err(|_| "--check needs a number".to_string())?),
                _ => return Err(format!("{word} is not known: {USAGE}")),
            }
        }
        Ok(options)
    }
}
