//! A device, a work space and a session in one hand.
#![allow(dead_code)]

use plain::*;

pub const A: &[u8] = &[1, 2, 3, 4, 5, 6, 7, 8];
pub const B: &[u8] = &[9, 0, 0, 0, 0, 0, 0, 0];

#[derive(Clone)]
pub struct Till {
    pub device: Vec<u8>,
    pub work: Vec<u8>,
    pub session: Session,
}

impl Till {
    /// Formatted and opened.
    pub fn new(blocks: usize) -> Till {
        let mut t = Till { device: vec![0xee; blocks * BLOCK], work: vec![0xdd; WORK_SIZE], session: Session::never_opened() };
        format(&mut t.device, &mut t.session).unwrap();
        t.open().unwrap();
        t
    }

    /// E3: create A and write 600 bytes, not committed.
    pub fn e3() -> Till {
        let mut t = Till::new(64);
        t.create(A).unwrap();
        t.write(A, 0, &[7; 600]).unwrap();
        t
    }

    pub fn open(&mut self) -> Result<(), Refusal> {
        open(&self.device, &mut self.session)
    }

    pub fn create(&mut self, name: &[u8]) -> Result<(), Refusal> {
        create(&self.device, &mut self.work, &mut self.session, name)
    }

    pub fn remove(&mut self, name: &[u8]) -> Result<(), Refusal> {
        remove(&self.device, &mut self.work, &mut self.session, name)
    }

    pub fn rename(&mut self, name: &[u8], new: &[u8]) -> Result<(), Refusal> {
        rename(&self.device, &mut self.work, &mut self.session, name, new)
    }

    pub fn write(&mut self, name: &[u8], x: u64, bytes: &[u8]) -> Result<(), Refusal> {
        write(&self.device, &mut self.work, &mut self.session, name, x, bytes)
    }

    pub fn set_size(&mut self, name: &[u8], size: u64) -> Result<(), Refusal> {
        set_size(&self.device, &mut self.work, &mut self.session, name, size)
    }

    pub fn read(&self, name: &[u8], x: u64, buffer: &mut [u8]) -> Result<usize, Refusal> {
        read(&self.device, &self.work, &self.session, name, x, buffer)
    }

    pub fn size(&self, name: &[u8]) -> Result<u64, Refusal> {
        size(&self.device, &self.work, &self.session, name)
    }

    pub fn free(&self) -> usize {
        free_count(&self.device, &self.work, &self.session).unwrap()
    }

    pub fn runs(&self, name: &[u8]) -> Vec<(u32, u32)> {
        let mut list = [Extent::default(); MAX_EXTENTS];
        let n = run_list(&self.device, &self.work, &self.session, name, 0, u64::MAX, &mut list).unwrap();
        list[..n].iter().map(|e| (e.first, e.count)).collect()
    }

    pub fn staged(&self) -> Vec<u32> {
        self.session.staged().to_vec()
    }

    /// Makes at most `most` stores; the blocks stored.
    pub fn advances(&mut self, most: usize) -> Vec<u32> {
        let step = || advance(&mut self.device, &self.work, &mut self.session).unwrap();
        std::iter::from_fn(step).take(most).map(|s| s.block).collect()
    }

    /// Starts a commit and makes all its stores; the blocks stored.
    pub fn commit(&mut self) -> Vec<u32> {
        let n = commit(&self.device, &self.work, &mut self.session).unwrap();
        let blocks = self.advances(usize::MAX);
        assert_eq!(blocks.len(), n);
        blocks
    }

    /// Starts a commit, makes some stores, and loses session and work space.
    pub fn cut_after(&mut self, stores: usize) {
        commit(&self.device, &self.work, &mut self.session).unwrap();
        assert_eq!(self.advances(stores).len(), stores);
        self.session = Session::never_opened();
        self.work.fill(0x99);
    }

    pub fn load_begin(&self) -> Result<(), Refusal> {
        load_begin(&self.device, &self.work, &self.session)
    }

    pub fn load_step(&mut self, text: &[u8], place: &mut usize) -> Result<LoadStep, LoadRefusal> {
        load_step(&mut self.device, &mut self.work, &mut self.session, text, place)
    }

    /// Steps from the front of a text on until none is left, or up to the first refusal.
    pub fn load(&mut self, text: &[u8]) -> Result<(), (Option<usize>, u32)> {
        let mut place = 0;
        loop {
            match self.load_step(text, &mut place) {
                Ok(LoadStep::NoneLeft) => return Ok(()),
                Ok(_) => {}
                Err(e) => return Err((e.line, e.refusal.number())),
            }
        }
    }

    /// A whole file.
    pub fn file(&self, name: &[u8]) -> Vec<u8> {
        let mut bytes = vec![0; self.size(name).unwrap() as usize];
        assert_eq!(self.read(name, 0, &mut bytes), Ok(bytes.len()));
        bytes
    }

    pub fn block(&self, b: usize) -> &[u8] {
        &self.device[b * BLOCK..(b + 1) * BLOCK]
    }
}
