//! New bytes for a purse, of any size, all or nothing.
//!
//! What fits is one transaction. More is gathered in a second purse of a reserved name, transaction by transaction; the
//! last one removes the old purse and renames the second. All of it is first tried in memory: a put that is refused
//! stores nothing.

use std::path::Path;

use purse::{Failure, FileDevice, Refusal, Store, BLOCK_SIZE, WORK_SIZE};

use crate::name::{Name, SECOND};
use crate::output::{progress, tell};
use crate::report::{Answer, Force, Trouble};

/// The data blocks that a transaction has room for beside the bit table and a block of records.
const MOST_DATA: usize = 30;

/// Where the transactions of a put go.
trait Target {
    /// Commits a transaction; the put counts with the last one.
    fn commit(&mut self, store: &mut Store, last: bool) -> Answer<u64>;

    /// A left-over of an earlier put is being removed.
    fn left_over(&mut self) {}
}

/// Memory alone: what would come of it.
struct Rehearsal;

impl Target for Rehearsal {
    fn commit(&mut self, store: &mut Store, _last: bool) -> Answer<u64> {
        Ok(store.commit_in_memory()?)
    }
}

/// The image file.
struct Performance<'p, 'f> {
    path: &'p Path,
    device: &'p mut FileDevice<'f>,
    name: Name,
    done: u64,
    total: u64,
}

impl Target for Performance<'_, '_> {
    fn commit(&mut self, store: &mut Store, last: bool) -> Answer<u64> {
        let answer = store.commit_on(self.device).map_err(|failure| match failure {
            Failure::Device(broken) if !last => Trouble::broken(self.path, &broken, Force::NotAndLeft),
            other => Trouble::commit(self.path, other),
        });
        self.done += answer.as_ref().unwrap_or(&0);
        match &answer {
            Ok(_) if !last => progress(format_args!("put {}: {} of {} stores", self.name, self.done, self.total)),
            Ok(stores) if *stores == self.total => {}
            _ => progress(format_args!("")),
        }
        answer
    }

    fn left_over(&mut self) {
        tell(format_args!("removing {SECOND}, the left-over of a put that was broken off"));
    }
}

/// How many stores a put of these bytes into an image takes, or its refusal. The image becomes what the put makes of it.
pub fn rehearse(image: &mut [u8], name: Name, bytes: &[u8]) -> Answer<u64> {
    let mut work = vec![0; WORK_SIZE];
    let mut store = Store::new(image, &mut work);
    store.open_in_memory()?;
    run(&mut store, name, bytes, &mut Rehearsal)
}

/// Puts these bytes in the file; `total` is what the rehearsal answered.
pub fn perform(store: &mut Store, device: &mut FileDevice, path: &Path, name: Name, bytes: &[u8], total: u64) -> Answer<u64> {
    run(store, name, bytes, &mut Performance { path, device, name, done: 0, total })
}

fn run(store: &mut Store, name: Name, bytes: &[u8], target: &mut dyn Target) -> Answer<u64> {
    let mut stores = sweep(store, target)?;
    match stage_whole(store, name, bytes) {
        Ok(()) => stores += target.commit(store, true)?,
        Err(Refusal::TooManyStaged) => {
            store.abort()?;
            let old = store.size(&name.0).is_ok();
            stores += gather(store, name, bytes, target).map_err(|t| if old { beside(t) } else { t })?;
        }
        Err(refusal) => return Err(refusal.into()),
    }
    Ok(stores)
}

/// Why a long put may be refused where a short one is not.
fn beside(trouble: Trouble) -> Trouble {
    match trouble {
        Trouble::Refused(refusal, more) => {
            Trouble::Refused(refusal, more + "; a put of this size needs a record and room beside the old purse")
        }
        other => other,
    }
}

/// Removes what a put left that was broken off.
fn sweep(store: &mut Store, target: &mut dyn Target) -> Answer<u64> {
    match store.remove(&SECOND.0) {
        Ok(()) => {
            target.left_over();
            target.commit(store, false)
        }
        Err(Refusal::Unknown) => Ok(0),
        Err(refusal) => Err(refusal.into()),
    }
}

/// The purse with these bytes, as one transaction.
fn stage_whole(store: &mut Store, name: Name, bytes: &[u8]) -> Result<(), Refusal> {
    match store.create(&name.0) {
        Err(Refusal::Taken) => store.set_size(&name.0, 0)?,
        made => made?,
    }
    store.write(&name.0, 0, bytes)
}

/// The second purse filled in several transactions, then put in the place of the old one.
fn gather(store: &mut Store, name: Name, bytes: &[u8], target: &mut dyn Target) -> Answer<u64> {
    let mut stores = 0;
    let mut done = 0;
    store.create(&SECOND.0)?;
    while done < bytes.len() {
        done += stage_part(store, done, &bytes[done..])?;
        stores += target.commit(store, false)?;
    }
    match store.remove(&name.0) {
        Err(Refusal::Unknown) => {}
        removed => removed?,
    }
    store.rename(&SECOND.0, &name.0)?;
    Ok(stores + target.commit(store, true)?)
}

/// As many bytes as one transaction takes: fewer than 30 blocks where extent blocks change too. Answers how many.
fn stage_part(store: &mut Store, done: usize, rest: &[u8]) -> Result<usize, Refusal> {
    let mut blocks = MOST_DATA;
    loop {
        let part = &rest[..rest.len().min(blocks * BLOCK_SIZE)];
        match store.write(&SECOND.0, done as u64, part) {
            Err(Refusal::TooManyStaged) if blocks > 1 => blocks -= 1,
            staged => return staged.map(|()| part.len()),
        }
    }
}

#[cfg(test)]
mod tests {
    use super::*;

    const A: Name = Name([1; 8]);

    fn new_box(blocks: usize) -> Vec<u8> {
        let (mut image, mut work) = (vec![0; BLOCK_SIZE * blocks], vec![0; WORK_SIZE]);
        Store::new(&mut image, &mut work).format().unwrap();
        image
    }

    fn bytes(n: usize) -> Vec<u8> {
        (0..n).map(|i| (i / 7 + i) as u8).collect()
    }

    fn held(image: &[u8]) -> Vec<(Name, Vec<u8>)> {
        let (mut image, mut work) = (image.to_vec(), vec![0; WORK_SIZE]);
        let mut store = Store::new(&mut image, &mut work);
        store.open().unwrap();
        let read = |f: purse::File| {
            let mut bytes = vec![0; f.size as usize];
            store.read(&f.name, 0, &mut bytes).unwrap();
            (Name(f.name), bytes)
        };
        store.files().map(|f| read(f.unwrap())).collect()
    }

    #[test]
    fn every_kind_of_size() {
        let mut image = new_box(4096);
        for size in [0, 1, 600, 30 * 512, 30 * 512 + 1, 100_000, 0, 1_048_576, 5] {
            rehearse(&mut image, A, &bytes(size)).unwrap();
            assert!(held(&image) == [(A, bytes(size))], "{size} bytes");
        }
    }

    #[test]
    fn refusals() {
        let full = |r: Answer<u64>| match r {
            Err(Trouble::Refused(refusal, _)) => refusal.number(),
            other => panic!("{other:?}"),
        };
        let mut image = new_box(128);
        assert_eq!(full(rehearse(&mut image.clone(), A, &bytes(1_048_577))), 4);
        assert_eq!(full(rehearse(&mut image.clone(), A, &bytes(87 * 512))), 16);
        assert_eq!(rehearse(&mut image, A, &bytes(60 * 512)).unwrap(), 2 * 66 + 4);
        // There is no room for a second purse beside the first.
        assert_eq!(full(rehearse(&mut image.clone(), A, &bytes(40 * 512))), 16);
        rehearse(&mut image, A, &bytes(26 * 512)).unwrap();
    }

    #[test]
    fn a_left_over_is_removed() {
        let mut image = new_box(64);
        let mut work = vec![0; WORK_SIZE];
        let mut store = Store::new(&mut image, &mut work);
        store.open().unwrap();
        store.create(&SECOND.0).unwrap();
        store.commit_in_memory().unwrap();
        rehearse(&mut image, A, b"meal").unwrap();
        assert!(held(&image) == [(A, b"meal".to_vec())]);
    }
}
