//! Where the cases come from: recorded answers, folders, the grid of elements and parents, random streams.

use crate::cases::Case;
use rufsm::generate::{stream, Profile};
use rufsm::judge::{self, Verdict};
use rufsm::table::Table;
use rufsm::{answer, frames, grid};
use std::fs;
use std::path::Path;

/// A name for the report, and the cases.
pub struct Group {
    pub name: String,
    pub cases: Vec<Case>,
}

/// A random stream and what the judge says of it.
pub struct Judged {
    name: String,
    pub stream: Vec<u8>,
    pub verdict: Verdict,
}

fn read(path: &Path) -> Result<Vec<u8>, String> {
    fs::read(path).map_err(|e| format!("{}: {e}", path.display()))
}

fn read_text(path: &Path) -> Result<String, String> {
    String::from_utf8(read(path)?).map_err(|e| format!("{}: {e}", path.display()))
}

/// Streams and dumps in two files with the same names in the same order.
pub fn answers(folder: &str) -> Result<Group, String> {
    let file = |name: &str| frames::parse(&read(&Path::new(folder).join(name))?);
    let (streams, dumps) = (file("streams.txt")?, file("dump.txt")?);
    let names = |frames: &[frames::Frame]| -> Vec<String> { frames.iter().map(|(name, _)| name.clone()).collect() };
    if streams.is_empty() || names(&streams) != names(&dumps) {
        return Err(format!("{folder}: streams.txt and dump.txt do not belong together"));
    }
    let one = |((name, stream), (_, dump)): (frames::Frame, frames::Frame)| {
        Case::of_stream(&name, &stream, &String::from_utf8_lossy(&dump))
    };
    let cases = streams.into_iter().zip(dumps).map(one).collect::<Result<_, String>>()?;
    Ok(Group { name: folder.to_string(), cases })
}

/// All FOLDER/NAME.events, each with NAME.dump beside it.
pub fn folder(folder: &str) -> Result<Group, String> {
    let entries = fs::read_dir(folder).map_err(|e| format!("{folder}: {e}"))?;
    let mut paths: Vec<_> = entries.filter_map(|entry| Some(entry.ok()?.path())).collect();
    paths.retain(|path| path.extension().is_some_and(|extension| extension == "events"));
    paths.sort();
    let one = |path: &std::path::PathBuf| {
        Case::of_stream(&path.display().to_string(), &read(path)?, &read_text(&path.with_extension("dump"))?)
    };
    let cases: Vec<Case> = paths.iter().map(one).collect::<Result<_, String>>()?;
    if cases.is_empty() {
        return Err(format!("{folder} holds no .events file"));
    }
    Ok(Group { name: folder.to_string(), cases })
}

/// Every element in every parent, as each kind of event.
pub fn nesting() -> Group {
    let places = grid::places();
    let events: usize = places.iter().map(|place| place.tried.len()).sum();
    let name = format!("every element in every parent, {events} events");
    Group { name, cases: places.iter().map(Case::of_place).collect() }
}

fn judged(seed: u64, index: u64, profile: Profile) -> Result<Judged, String> {
    let stream = stream(seed, index, profile);
    let verdict = judge::judge(&stream).map_err(|absent| absent.to_string())?;
    Ok(Judged { name: format!("{seed}-{index} {profile:?}"), stream, verdict })
}

/// The streams of a seed.
pub fn random(seed: u64, count: u64, profile: Profile) -> Result<Vec<Judged>, String> {
    (0..count).map(|index| judged(seed, index, profile)).collect()
}

/// Of `count` streams of each profile, shortest first, those that have something of the generator's table that no
/// shorter one has.
pub fn cover(seed: u64, count: u64) -> Result<Vec<Judged>, String> {
    let mut pool = Vec::new();
    for profile in [Profile::Small, Profile::Middle, Profile::Ordinary] {
        pool.extend(random(seed, count, profile)?);
    }
    pool.sort_by_key(|one| one.stream.len());
    let mut table = Table::new();
    pool.retain(|one| table.add_new(&one.stream, &one.verdict));
    Ok(pool)
}

pub fn group(name: String, streams: &[Judged]) -> Result<Group, String> {
    let one = |one: &Judged| Case::of_stream(&one.name, &one.stream, &answer::dump(&one.verdict));
    Ok(Group { name, cases: streams.iter().map(one).collect::<Result<_, String>>()? })
}
