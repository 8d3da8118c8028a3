//! Devices to measure on, made with the proved store.

use purse::{Store, WORK_SIZE};

pub struct Image {
    pub device: Vec<u8>,
    sizes: Vec<u64>,
}

pub fn name(i: u32) -> [u8; 8] {
    (u64::from(i) + 1).to_be_bytes()
}

fn grow(store: &mut Store, file: u32, from: u64, to: u64) {
    let mut size = from;
    while size < to {
        size = to.min(size + 20 * 512);
        store.set_size(&name(file), size).expect("room");
        store.commit_in_memory().expect("stores");
    }
}

impl Image {
    fn made(blocks: usize, sizes: Vec<u64>, fill: impl FnOnce(&mut Store)) -> Self {
        let mut device = vec![0u8; 512 * blocks];
        let mut work = vec![0u8; WORK_SIZE];
        let mut store = Store::new(&mut device, &mut work);
        store.format().expect("an allowed length");
        store.open().expect("empty");
        for i in 0..sizes.len() as u32 {
            store.create(&name(i)).expect("a record");
            store.commit_in_memory().expect("stores");
        }
        fill(&mut store);
        Image { device, sizes }
    }

    pub fn empty(blocks: usize) -> Self {
        Image::made(blocks, Vec::new(), |_| ())
    }

    /// Files of one size, each in one stretch.
    pub fn even(blocks: usize, files: u32, size: u64) -> Self {
        Image::made(blocks, vec![size; files as usize], |s| (0..files).for_each(|i| grow(s, i, 0, size)))
    }

    /// All blocks in use, shared out among the files.
    pub fn full(blocks: usize, files: u32) -> Self {
        let share = (blocks - 42) as u64 / u64::from(files) * 512;
        Image::even(blocks, files, share)
    }

    /// A file whose blocks lie one by one between those of another.
    pub fn scattered(blocks: usize, n: u64) -> Self {
        Image::made(blocks, vec![512 * n, 512 * n], |s| {
            for k in 1..=n {
                for i in 0..2 {
                    s.set_size(&name(i), 512 * k).expect("room");
                }
                s.commit_in_memory().expect("stores");
            }
        })
    }

    pub fn size(&self, file: u32) -> u64 {
        self.sizes[file as usize]
    }
}
