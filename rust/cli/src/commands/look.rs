//! Commands that store nothing.

use std::fmt::Write;
use std::path::Path;

use purse::{Extent, Phase, Refusal, Store, EXTENTS_MOST};

use crate::damage::refused;
use crate::image::{no_redo, open, pending, Image};
use crate::name::Name;
use crate::output::{coloured, give, make_file};
use crate::picture::Picture;
use crate::report::{Answer, Trouble};

/// What a listing says.
enum Listing {
    Purses(Vec<(Name, u64, Vec<Extent>)>, u64),
    Recover(usize),
    Refused(Refusal),
}

fn listing(store: &mut Store) -> Result<Listing, Refusal> {
    if let Err(refusal) = store.open() {
        return Ok(Listing::Refused(refusal));
    }
    if store.phase() != Phase::Ready {
        return Ok(Listing::Recover(store.logged().count()));
    }
    let mut purses = Vec::new();
    for file in store.files() {
        let file = file?;
        let mut list = [Extent::default(); EXTENTS_MOST];
        let n = store.run_list(&file.name, 0, u64::MAX, &mut list)?;
        purses.push((Name(file.name), file.size, list[..n].to_vec()));
    }
    Ok(Listing::Purses(purses, store.free_count()?))
}

/// As document 01's purselist prints it.
fn text(listing: &Listing) -> String {
    match listing {
        Listing::Refused(refusal) => format!("refused {}\n", refusal.number()),
        Listing::Recover(blocks) => format!("recover {blocks}\n"),
        Listing::Purses(purses, free) => {
            let mut text = format!("files {} free {free}\n", purses.len());
            for (name, size, extents) in purses {
                let runs: Vec<_> = extents.iter().map(|e| format!("{}+{}", e.first, e.count)).collect();
                let runs = if runs.is_empty() { "-".into() } else { runs.join(",") };
                let _ = writeln!(text, "{name} {size} {runs}");
            }
            text
        }
    }
}

fn json(listing: &Listing) -> String {
    match listing {
        Listing::Refused(refusal) => {
            let fault = match refusal {
                Refusal::BadHeader(record) | Refusal::DamagedRecord(record) => format!(",\"record\":{record}"),
                Refusal::DamagedBlock(block) => format!(",\"block\":{block}"),
                _ => String::new(),
            };
            format!("{{\"refused\":{}{fault}}}\n", refusal.number())
        }
        Listing::Recover(blocks) => format!("{{\"recover\":{blocks}}}\n"),
        Listing::Purses(purses, free) => {
            let purse = |(name, size, extents): &(Name, u64, Vec<Extent>)| {
                let runs: Vec<_> = extents.iter().map(|e| format!("[{},{}]", e.first, e.count)).collect();
                format!("\n{{\"name\":\"{name}\",\"size\":{size},\"extents\":[{}]}}", runs.join(","))
            };
            let purses: Vec<_> = purses.iter().map(purse).collect();
            format!("{{\"free\":{free},\"files\":[{}]}}\n", purses.join(","))
        }
    }
}

/// The purses. A refusal is part of the listing, and told besides.
pub fn list(path: &Path, as_json: bool) -> Answer {
    let mut image = Image::to_read(path)?;
    let listing = listing(&mut image.store())?;
    give(if as_json { json(&listing) } else { text(&listing) }.as_bytes())?;
    match listing {
        Listing::Refused(refusal) => Err(refused(&image.bytes, refusal)),
        _ => Ok(()),
    }
}

/// Whether the box is sound, or would be once it is recovered.
pub fn check(path: &Path) -> Answer {
    let mut image = Image::to_read(path)?;
    let mut store = image.store();
    open(&mut store)?;
    if store.phase() == Phase::Ready {
        return give(b"sound\n");
    }
    let blocks = store.logged().count();
    // The image in memory is of no further use: it may be recovered.
    store.open_in_memory().map_err(|refusal| no_redo(store.image(), refusal))?;
    give(format!("recover {blocks}\n").as_bytes())
}

/// A refusal 12 tells that a log is pending.
pub fn hinted(store: &Store, refusal: Refusal) -> Trouble {
    Trouble::Refused(refusal, pending(store))
}

/// The bytes of a purse.
pub fn read(store: &Store, name: Name) -> Result<Vec<u8>, Refusal> {
    let size = store.size(&name.0)?;
    let mut bytes = vec![0; size as usize];
    let n = store.read(&name.0, 0, &mut bytes)?;
    bytes.truncate(n);
    Ok(bytes)
}

/// The bytes of a purse on standard output.
pub fn get(path: &Path, name: Name) -> Answer {
    let mut image = Image::to_read(path)?;
    let mut store = image.store();
    open(&mut store)?;
    give(&read(&store, name).map_err(|r| hinted(&store, r))?)
}

/// What each block is used for: on standard output, or as a picture in a new file.
pub fn map(path: &Path, svg: Option<&Path>) -> Answer {
    let mut image = Image::to_read(path)?;
    let mut store = image.store();
    open(&mut store)?;
    let picture = Picture::of(&store).map_err(|r| hinted(&store, r))?;
    match svg {
        Some(file) if file.as_os_str() == "-" => give(picture.svg().as_bytes()),
        Some(file) => make_file(file, picture.svg().as_bytes()),
        None => give(picture.text(coloured()).as_bytes()),
    }
}

#[cfg(test)]
mod tests {
    use super::*;

    #[test]
    fn listings() {
        let extents = vec![Extent { first: 45, count: 1 }, Extent { first: 47, count: 2 }];
        let all = Listing::Purses(vec![(Name([1; 8]), 1480, extents), (Name([0xab; 8]), 0, vec![])], 8);
        assert_eq!(text(&all), "files 2 free 8\n0101010101010101 1480 45+1,47+2\nABABABABABABABAB 0 -\n");
        assert_eq!(
            json(&all),
            "{\"free\":8,\"files\":[\n{\"name\":\"0101010101010101\",\"size\":1480,\"extents\":[[45,1],[47,2]]},\
             \n{\"name\":\"ABABABABABABABAB\",\"size\":0,\"extents\":[]}]}\n"
        );
        assert_eq!(text(&Listing::Recover(4)), "recover 4\n");
        assert_eq!(text(&Listing::Refused(Refusal::DamagedRecord(5))), "refused 22\n");
        let refused = |refusal| json(&Listing::Refused(refusal));
        assert_eq!(refused(Refusal::DeviceSize), "{\"refused\":1}\n");
        assert_eq!(refused(Refusal::BadHeader(1)), "{\"refused\":10,\"record\":1}\n");
        assert_eq!(refused(Refusal::DamagedRecord(5)), "{\"refused\":22,\"record\":5}\n");
        assert_eq!(refused(Refusal::DamagedBlock(43)), "{\"refused\":23,\"block\":43}\n");
    }
}
