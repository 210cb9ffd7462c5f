//! The commands of the second program.

use std::env;
use std::fs::{self, File};
use std::io::{self, BufWriter, Read, Write};
use std::path::Path;
use std::process::ExitCode;

use second::list::MOST_BYTES;
use second::rows::fullest;
use second::trials::Met;
use second::verdicts::{Pair, Verdicts};
use second::{dump, examples, list, make, pack, recordings, trials, utf8, Order};

const USAGE: &str = "usage: second list FILE
       second dump FILE
       second first FILE
       second records
       second peaks FILE
       second follow FILE
       second make SEED
       second verdicts FILE...
       second samples DIR
       second sized BYTES
       second fullest BYTES
       second streams SEED COUNT MOST
       second trials FILE
       second met FILE
       second utf8 FILE
       second utf8make SEED COUNT";

fn main() -> ExitCode {
    let words: Vec<String> = env::args().skip(1).collect();
    let words: Vec<&str> = words.iter().map(String::as_str).collect();
    match run(&words) {
        Ok(code) => code,
        Err(problem) => {
            eprintln!("second: {problem}");
            ExitCode::from(2)
        }
    }
}

/// Status 0 says the command gave its answer, whatever the answer is.
fn run(words: &[&str]) -> Result<ExitCode, String> {
    match words {
        ["list", file] => print(list::list(&read_for_listing(file)?).as_bytes()),
        ["dump", file] => print(dump::dump(&read_for_listing(file)?).as_bytes()),
        ["first", file] => print(examples::first(&read_for_listing(file)?).as_bytes()),
        ["records"] => print(examples::records().as_bytes()),
        ["peaks", file] => print(examples::peaks(&read_for_listing(file)?).as_bytes()),
        ["follow", file] => print(examples::follow(&read_for_listing(file)?).as_bytes()),
        ["make", seed] => print(&make::make(parse_number(seed)?)),
        ["verdicts", files @ ..] if !files.is_empty() => count_verdicts(files),
        ["samples", dir] => write_samples(Path::new(dir)),
        ["sized", bytes] => {
            let bytes = parse_number(bytes)? as usize;
            if bytes < 64 {
                return Err(format!("{bytes} are too few bytes"));
            }
            print(&recordings::sized(bytes))
        }
        ["fullest", bytes] => print(&fullest(Order::Little, parse_number(bytes)? as usize)),
        ["streams", seed, count, most] => {
            let (seed, count, most) = (
                parse_number(seed)?,
                parse_number(count)?,
                parse_number(most)?,
            );
            print(&pack_streams(&trials::streams(
                seed,
                count as usize,
                most as usize,
            ))?)
        }
        ["trials", file] => {
            let (text, _) = run_trials(file)?;
            print(text.as_bytes())
        }
        ["met", file] => {
            let (_, met) = run_trials(file)?;
            print(met.table().as_bytes())?;
            Ok(report(&met.missing(), &met.outside()))
        }
        ["utf8", file] => {
            let verdicts = utf8::judge_strings(&read(file)?)
                .ok_or_else(|| format!("{file} is no file of strings"))?;
            print(format!("{verdicts}\n").as_bytes())
        }
        ["utf8make", seed, count] => {
            let mut out = BufWriter::new(io::stdout().lock());
            utf8::make_strings(parse_number(seed)?, parse_number(count)? as usize, &mut out)
                .and_then(|()| out.flush())
                .map_err(|e| e.to_string())?;
            Ok(ExitCode::SUCCESS)
        }
        _ => Err(USAGE.to_owned()),
    }
}

fn parse_number(word: &str) -> Result<u64, String> {
    word.parse().map_err(|_| format!("{word} is not a number"))
}

fn read(file: &str) -> Result<Vec<u8>, String> {
    fs::read(file).map_err(|e| format!("{file}: {e}"))
}

/// One byte past the limit is enough to know that a file is too long.
fn read_for_listing(file: &str) -> Result<Vec<u8>, String> {
    let mut bytes = Vec::new();
    File::open(file)
        .and_then(|f| f.take(MOST_BYTES as u64 + 1).read_to_end(&mut bytes))
        .map_err(|e| format!("{file}: {e}"))?;
    Ok(bytes)
}

fn print(bytes: &[u8]) -> Result<ExitCode, String> {
    let mut out = io::stdout().lock();
    out.write_all(bytes)
        .and_then(|()| out.flush())
        .map_err(|e| e.to_string())?;
    Ok(ExitCode::SUCCESS)
}

fn count_verdicts(files: &[&str]) -> Result<ExitCode, String> {
    let mut verdicts = Verdicts::default();
    for file in files {
        let listing = fs::read_to_string(file).map_err(|e| format!("{file}: {e}"))?;
        verdicts
            .add(&listing)
            .map_err(|line| format!("{file}: no listing has the line {line:?}"))?;
    }
    let table: String = verdicts
        .counts()
        .map(|((kind, verdict), count)| format!("{kind} {verdict} {count}\n"))
        .collect();
    print(table.as_bytes())?;
    let words = |pairs: Vec<Pair>| -> Vec<String> {
        pairs
            .iter()
            .map(|(kind, verdict)| format!("{kind} {verdict}"))
            .collect()
    };
    Ok(report(
        &words(verdicts.missing()),
        &words(verdicts.outside()),
    ))
}

/// Names the answers that were not met, and those that no stream can give.
fn report(missing: &[String], outside: &[String]) -> ExitCode {
    for answer in missing {
        eprintln!("not met: {answer}");
    }
    for answer in outside {
        eprintln!("cannot occur: {answer}");
    }
    if missing.is_empty() && outside.is_empty() {
        ExitCode::SUCCESS
    } else {
        ExitCode::FAILURE
    }
}

fn pack_streams(streams: &[Vec<u8>]) -> Result<Vec<u8>, String> {
    let mut file = Vec::new();
    pack::put_number(streams.len(), &mut file).map_err(|e| e.to_string())?;
    for stream in streams {
        pack::put_string(stream, &mut file).map_err(|e| e.to_string())?;
    }
    Ok(file)
}

/// The lines of all streams of a file, and what they met.
fn run_trials(file: &str) -> Result<(String, Met), String> {
    let bytes = read(file)?;
    let streams = pack::unpack(&bytes).ok_or_else(|| format!("{file} is no file of streams"))?;
    let mut met = Met::default();
    let text = streams
        .iter()
        .map(|stream| trials::trial(stream, &mut met))
        .collect();
    Ok((text, met))
}

fn write_samples(dir: &Path) -> Result<ExitCode, String> {
    fs::create_dir_all(dir).map_err(|e| format!("{}: {e}", dir.display()))?;
    for (name, bytes) in recordings::all() {
        let path = dir.join(name);
        fs::write(&path, bytes).map_err(|e| format!("{}: {e}", path.display()))?;
    }
    Ok(ExitCode::SUCCESS)
}
