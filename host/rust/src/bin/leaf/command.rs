//! The command line.
use crate::{batch, figures, output, picture, report, scan, Failure};
use novlizeb::{LayoutParams, Leaf, MAX_CAPACITY};
use std::ffi::OsString;
use std::fs;
use std::path::{Path, PathBuf};

const HELP: &str = "leaf measures scans of printed leaves: x-height, lines, blocks, columns, and what each dot of ink is.

    leaf figures SCAN              the figures, as a table in words
    leaf sheet SCAN                the printed sheet, in hexadecimal
    leaf picture SCAN OUT.png      the levelled leaf, each kind of ink in its colour, boxes of lines, blocks and columns
    leaf report SCAN OUT.html      one page to open in a browser: layers, figures, lists, the dots of each glyph
    leaf batch DIR_OR_SCAN..       a line of CSV for each scan, on standard output
    leaf params                    the parameters and their defaults, as --params takes them

SCAN is a PBM (P1 or P4) or a PNG, at most 8192 dots a side. In a PNG a dot is ink where it is darker than half.

    --skew DEG        text that rises by so many degrees to the right is levelled first (default 0)
    --params FILE     lines `name = value`; what is not named keeps its default
    --capacity N      how many components a labelling may have, 1 to 65535 (default 65535)
    --dpi N           dots an inch: lengths are told in millimetres too
    --no-header       batch: no line of names first

Examples:
    leaf figures --skew 0.6 --dpi 300 feyn.pbm
    leaf report feyn.pbm feyn.html
    leaf batch scans/ > scans.csv
    parallel leaf batch --no-header {} ::: scans/*.pbm >> scans.csv

The status is 0 where all went well, 1 where a scan could not be read or measured (a line tells why), 2 where the command line is wrong. A file that is written is whole or not there.";

/// What is asked of every scan.
#[derive(Debug, Clone)]
pub struct Settings {
    pub skew: f64,
    pub params: LayoutParams,
    pub capacity: u32,
    pub dpi: Option<f64>,
}

impl Settings {
    /// Reads and measures a scan.
    pub fn measure(&self, path: &Path) -> Result<Leaf, Failure> {
        let mask = scan::read(path)?;
        let mut leaf = Leaf::new();
        leaf.level(&mask, self.skew, &self.params, self.capacity).map_err(|r| Failure::new(path.display(), r))?;
        leaf.segment(&self.params).map_err(|r| Failure::new(path.display(), r))?;
        Ok(leaf)
    }
}

/// What is to be done.
#[derive(Debug)]
pub enum Command {
    Help,
    Params,
    Figures(PathBuf),
    Sheet(PathBuf),
    Picture(PathBuf, PathBuf),
    Report(PathBuf, PathBuf),
    Batch(Vec<PathBuf>, bool),
}

/// A command with its settings.
#[derive(Debug)]
pub struct Asked {
    command: Command,
    settings: Settings,
}

impl Asked {
    pub fn run(&self) -> Result<(), Failure> {
        let s = &self.settings;
        match &self.command {
            Command::Help => output::print(HELP.as_bytes()).and_then(|()| output::print(b"\n")),
            Command::Params => output::print(s.params.to_text().as_bytes()),
            Command::Figures(path) => {
                let leaf = s.measure(path)?;
                output::print(figures::table(&leaf, path, s.dpi).map_err(|wrong| Failure::new(path.display(), wrong))?.as_bytes())
            }
            Command::Sheet(path) => output::print(s.measure(path)?.sheet().map_err(|wrong| Failure::new(path.display(), wrong))?.as_bytes()),
            Command::Picture(path, out) => {
                let leaf = s.measure(path)?;
                output::write_whole(out, |file| picture::write(&leaf, file))
            }
            Command::Report(path, out) => {
                let leaf = s.measure(path)?;
                let page = report::page(&leaf, path, s).map_err(|wrong| Failure::new(path.display(), wrong))?;
                output::write_whole(out, |file| Ok(std::io::Write::write_all(file, page.as_bytes())?))
            }
            Command::Batch(paths, header) => batch::run(paths, *header, s),
        }
    }
}

fn number<T: std::str::FromStr>(option: &str, text: &OsString) -> Result<T, Failure> {
    text.to_str().and_then(|t| t.parse().ok()).ok_or_else(|| Failure::new(option, format!("`{}` is no number that it can take", text.to_string_lossy())))
}

/// Reads the words of the command line.
pub fn parse(words: impl Iterator<Item = OsString>) -> Result<Asked, Failure> {
    let mut settings = Settings { skew: 0.0, params: LayoutParams::default(), capacity: MAX_CAPACITY, dpi: None };
    let mut plain = Vec::new();
    let mut header = true;
    let mut help = false;
    let mut words = words;
    while let Some(word) = words.next() {
        let mut value = |option: &str| words.next().ok_or_else(|| Failure::new(option, "a value is missing"));
        match word.to_str() {
            Some("--help" | "-h") => help = true,
            Some("--no-header") => header = false,
            Some(option @ "--skew") => settings.skew = number(option, &value(option)?)?,
            Some(option @ "--capacity") => settings.capacity = number(option, &value(option)?)?,
            Some(option @ "--dpi") => settings.dpi = Some(number(option, &value(option)?)?),
            Some(option @ "--params") => {
                let path = PathBuf::from(value(option)?);
                let text = fs::read_to_string(&path).map_err(|wrong| Failure::new(path.display(), wrong))?;
                settings.params = LayoutParams::from_text(&text).map_err(|wrong| Failure::new(path.display(), wrong))?;
            }
            Some(option) if option.starts_with("--") => return Err(Failure::new(option, "there is no such option")),
            _ => plain.push(PathBuf::from(word)),
        }
    }
    if help || plain.is_empty() {
        return if help { Ok(Asked { command: Command::Help, settings }) } else { Err(Failure::new("no command", "one of figures, sheet, picture, report, batch, params")) };
    }
    let name = plain.remove(0);
    let name = name.to_string_lossy();
    let count = plain.len();
    let mut paths = plain.into_iter();
    let command = match (&*name, count, paths.next(), paths.next()) {
        ("help", ..) => Command::Help,
        ("params", 0, ..) => Command::Params,
        ("figures", 1, Some(scan), _) => Command::Figures(scan),
        ("sheet", 1, Some(scan), _) => Command::Sheet(scan),
        ("picture", 2, Some(scan), Some(out)) => Command::Picture(scan, out),
        ("report", 2, Some(scan), Some(out)) => Command::Report(scan, out),
        ("batch", _, Some(first), second) => Command::Batch(std::iter::once(first).chain(second).chain(paths).collect(), header),
        ("figures" | "sheet" | "picture" | "report" | "batch" | "params", ..) => return Err(Failure::new(&*name, "wrong number of files")),
        _ => return Err(Failure::new(&*name, "there is no such command")),
    };
    Ok(Asked { command, settings })
}

#[cfg(test)]
mod tests {
    use super::*;

    fn parsed(line: &str) -> Result<Asked, Failure> {
        parse(line.split_whitespace().map(OsString::from))
    }

    #[test]
    fn words() {
        assert!(matches!(parsed("figures a.pbm").unwrap().command, Command::Figures(_)));
        assert!(matches!(parsed("picture a.pbm b.png --skew 0.5").unwrap().command, Command::Picture(..)));
        assert!(matches!(parsed("batch a b c --no-header").unwrap().command, Command::Batch(paths, false) if paths.len() == 3));
        assert_eq!(parsed("figures a --skew -0.25").unwrap().settings.skew, -0.25);
        for line in ["", "figures", "figures a b", "nothing a", "figures a --skew", "figures a --skew x", "figures a --what", "picture a", "batch"] {
            assert!(parsed(line).is_err(), "{line}");
        }
    }
}
