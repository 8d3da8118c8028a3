//! A sale on a till box in a file: one card, one transaction, then the list of purses.
//! `sale IMAGE`; a new box is made if there is no such file.

use purse::{Extent, FileDevice, Store, EXTENTS_MOST, WORK_SIZE};
use std::error::Error;
use std::fs::{File, OpenOptions};
use std::path::{Path, PathBuf};

fn main() -> Result<(), Box<dyn Error>> {
    let path = PathBuf::from(std::env::args_os().nth(1).unwrap_or("sale.img".into()));
    let file = OpenOptions::new().read(true).write(true).create(true).truncate(false).open(&path)?;
    file.try_lock()?;
    let mut device = FileDevice::new(&file);
    let mut work = vec![0u8; WORK_SIZE];

    let mut image = device.read_image()?;
    if image.is_empty() {
        image = vec![0u8; 64 * 512];
        Store::new(&mut image, &mut work).format_on(&mut device)?;
        // The name of a new file is on the disk when its folder is.
        let folder = path.parent().filter(|folder| *folder != Path::new("")).unwrap_or(Path::new("."));
        File::open(folder)?.sync_all()?;
    }
    let mut store = Store::new(&mut image, &mut work);
    println!("{} stores of a recovery", store.open_on(&mut device)?);

    let sales = store.files().count();
    let card = format!("card{:04}", 417 + sales);
    store.create(card.as_bytes())?;
    store.write(card.as_bytes(), 0, &[7; 600])?;
    println!("{} stores of the sale", store.commit_on(&mut device)?);

    for file in store.files() {
        let file = file?;
        let mut list = [Extent::default(); EXTENTS_MOST];
        let n = store.run_list(&file.name, 0, u64::MAX, &mut list)?;
        println!("{} {} bytes {:?}", String::from_utf8_lossy(&file.name), file.size, &list[..n]);
    }
    println!("{} blocks free", store.free_count()?);
    Ok(())
}
