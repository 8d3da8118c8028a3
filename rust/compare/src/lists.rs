//! The lists of calls.

use crate::cards::Card;
use crate::damage;
use crate::faults;
use crate::gen::{self, Known};
use crate::image::{free_of, map_of, mix_records, name_of, sound_device, Shape};
use crate::loads::Taken;
use crate::model::{Map, Model, Phase};
use crate::pair::{Check, Pair, Tally};
use crate::rng::Rng;
use crate::side::{Answer, Call, Name};
use crate::verdict;
use plain::{Session, BLOCK, WORK_SIZE};

pub struct Driver {
    pub rng: Rng,
    pub pair: Pair,
    pub model: Model,
    names: Vec<Name>,
    /// Cards that were loaded.
    pub cards: Vec<Card>,
}

/// Runs the list of a seed. The tally comes with the first fault, if there is one.
pub fn run(seed: u64, loud: bool) -> (Tally, Check) {
    let mut rng = Rng::new(seed);
    let shape = shape(&mut rng);
    let mut driver = Driver::new(rng, shape, loud);
    let result = driver.list(shape).and_then(|()| driver.conversions());
    (driver.pair.tally, result)
}

/// Mostly small devices, some exactly full, some with heavily scattered files.
fn shape(rng: &mut Rng) -> Shape {
    let small = rng.range(64, 128) as usize;
    let (blocks, stretch, files) = match rng.below(200) {
        0..=89 => (small, rng.range(1, 5), rng.range(1, 4)),
        90..=129 => (rng.pick(&[64, 64, 65, 72, 80]), rng.range(1, 3), rng.range(1, 3)),
        130..=164 => (rng.range(100, 420) as usize, rng.range(1, 4), rng.range(1, 5)),
        165..=179 => (rng.range(290, 330) as usize, 1, 2),
        180..=189 => (rng.range(330, 700) as usize, rng.range(1, 2), 2),
        190..=196 => (rng.range(1070, 1100) as usize, 1, 2),
        197..=198 => (rng.range(1500, 4096) as usize, rng.range(1, 4), rng.range(2, 4)),
        _ => (4096, rng.range(1, 9), 3),
    };
    let turns = (blocks > 280 && stretch == 1 && !rng.one_in(4)) || rng.one_in(4);
    let empty = if rng.one_in(12) { rng.pick(&[124, 125, 126, 127, 128]) } else { rng.index(3) };
    let spare = if turns { rng.pick(&[0, 0, 40]) } else { rng.pick(&[0, 0, 2, 3, 6, 20]) };
    let mixed = !turns && rng.one_in(3);
    Shape { blocks, files: files as usize, empty, stretch, spare, mixed, turns }
}

impl Driver {
    fn new(rng: Rng, shape: Shape, loud: bool) -> Driver {
        let pair = Pair::new(shape.blocks, loud);
        let model = Model::new(Map::new(), shape.blocks);
        let fresh = [200, 201].into_iter();
        let names = (0..shape.files + 1).chain(fresh).map(|i| name_of(i).to_vec()).collect();
        Driver { rng, pair, model, names, cards: Vec::new() }
    }

    fn list(&mut self, shape: Shape) -> Check {
        self.pair.say(|| format!("{shape:?}"));
        match self.rng.below(10) {
            0..=3 => self.fresh()?,
            4..=7 => self.on_image(&shape)?,
            _ => return self.damaged(&shape),
        }
        let big = shape.blocks > 700;
        let rounds = if big { 3 } else { self.rng.range(2, 7) };
        let loads = self.rng.one_in(4);
        for _ in 0..rounds {
            if loads {
                self.loads()?;
            }
            self.transaction()?;
            self.probe()?;
        }
        self.cut_and_check()
    }

    // ---- beginnings

    fn fresh(&mut self) -> Check {
        self.step(&Call::Format)?;
        if self.rng.one_in(4) {
            self.probe()?;
        }
        self.step(&Call::Open)?;
        Ok(())
    }

    fn on_image(&mut self, shape: &Shape) -> Check {
        let device = sound_device(&mut self.rng, shape);
        self.model = Model::new(map_of(&device), shape.blocks);
        self.pair.both(|s| s.device.copy_from_slice(&device));
        self.step(&Call::Open)?;
        let whole = |a: &Name| Call::RunList(a.clone(), 0, u64::MAX, 512);
        for a in self.names.clone() {
            self.step(&whole(&a))?;
            self.grow(&a)?;
        }
        Ok(())
    }

    /// A few blocks more for a file, where the limits of space and extents are near.
    fn grow(&mut self, a: &Name) -> Check {
        let size = self.model.working.get(&a[..]).map_or(0, |f| f.len() as u64);
        let more = self.rng.pick(&[1, 512, 513, 1024, 1537]);
        let call = match self.rng.below(3) {
            0 => Call::Write(a.clone(), size, self.rng.bytes(more)),
            1 => Call::SetSize(a.clone(), size + more as u64),
            _ => Call::SetSize(a.clone(), size.div_ceil(512) * 512 + 512 * self.rng.range(1, 5)),
        };
        self.step(&call)?;
        if self.rng.one_in(3) {
            self.step(&Call::RunList(a.clone(), 0, u64::MAX, 512))?;
        }
        Ok(())
    }

    // ---- one call

    /// A call of a list that was not tampered with.
    pub fn step(&mut self, call: &Call) -> Check<Answer> {
        self.model.staged = self.pair.plain.session.count;
        let answer = self.pair.call(call)?;
        self.model.take(call, answer, &self.pair.lent)?;
        match answer {
            Answer::Counted(n) if matches!(call, Call::Free) => self.working_copy(n)?,
            Answer::Started(1..) if self.rng.one_in(4) => self.working_copy(free_of(&self.working()) as u64)?,
            _ => {}
        }
        Ok(answer)
    }

    /// The device with the staged images laid over it.
    pub fn working(&self) -> Vec<u8> {
        let state = &self.pair.proved;
        let mut device = state.device.clone();
        for (image, &b) in state.work.chunks(BLOCK).zip(state.session.staged()) {
            device[b as usize * BLOCK..][..BLOCK].copy_from_slice(image);
        }
        device
    }

    /// The working copy is sound, its map is the working one, and so many blocks are free in its trees.
    fn working_copy(&self, free: u64) -> Check {
        let copy = self.working();
        verdict::sound(&copy).map_err(|e| format!("{e} in the working copy"))?;
        if map_of(&copy) != self.model.working {
            return Err("the working copy's map is not the working one".into());
        }
        match free_of(&copy) as u64 {
            n if n == free => Ok(()),
            n => Err(format!("{n} blocks are free in the trees, {free} were answered")),
        }
    }

    pub fn generate(&mut self, make: fn(&mut Rng, &Known) -> Call) -> Call {
        let working = &self.model.working;
        let size = |a: &[u8]| working.get(a).map_or(0, |f| f.len() as u64);
        let file = |i: usize| working.keys().nth(i).map(|a| a.to_vec());
        let blocks = self.model.blocks as u64;
        let known = Known { names: &self.names, file: &file, files: working.len(), size: &size, blocks, cards: &self.cards };
        make(&mut self.rng, &known)
    }

    // ---- transactions

    fn transaction(&mut self) -> Check {
        for _ in 0..self.rng.range(1, 9) {
            let call = self.generate(gen::change);
            self.step(&call)?;
            if self.rng.one_in(3) {
                let call = self.generate(gen::query);
                self.step(&call)?;
            }
            if self.rng.one_in(25) {
                self.wrong_lengths()?;
            }
        }
        match self.rng.below(20) {
            0 => self.step(&Call::Abort).map(|_| ()),
            1 => self.step(&Call::Open).map(|_| ()),
            2 => self.cut_and_check(),
            3 if self.pair.plain.session.count <= 8 || self.rng.one_in(8) => self.every_cut(),
            4..=8 => self.commit_cut(),
            9 => Ok(()),
            _ => self.commit_whole(),
        }
    }

    pub fn commit_whole(&mut self) -> Check {
        self.step(&Call::Commit)?;
        let strange = self.rng.index(80);
        for i in 0.. {
            if i == strange {
                let call = self.generate(gen::query);
                self.step(&call)?;
            }
            let call = self.next_store();
            if self.step(&call)? == Answer::Idle {
                break;
            }
        }
        self.sound_and_mapped()
    }

    /// Mostly advance; a step of a load makes the next store of any commit.
    fn next_store(&mut self) -> Call {
        if self.model.phase != Phase::Committing || !self.rng.one_in(60) {
            return Call::Advance;
        }
        match self.generate(gen::load) {
            Call::LoadBegin => Call::Advance,
            step => step,
        }
    }

    /// A commit that is cut, forgotten or opened anew somewhere.
    fn commit_cut(&mut self) -> Check {
        let Answer::Started(stores) = self.step(&Call::Commit)? else { return Ok(()) };
        self.advances(0, stores)?;
        if self.rng.one_in(3) {
            let call = self.generate(gen::any);
            self.step(&call)?;
        }
        if self.rng.one_in(6) {
            self.step(&Call::Open)?;
            let k = self.model.k;
            self.advances(0, k + 1)?;
        }
        self.cut_and_check()
    }

    /// A random number of advances.
    fn advances(&mut self, low: u64, high: u64) -> Check {
        for _ in 0..self.rng.range(low, high) {
            self.step(&Call::Advance)?;
        }
        Ok(())
    }

    /// A call that is lent a wrong length of device or work space.
    pub fn wrong_lengths(&mut self) -> Check {
        let call = match self.rng.below(8) {
            0 => Call::Open,
            1 => Call::Format,
            2 => Call::Advance,
            3 => self.generate(gen::load),
            _ => self.generate(gen::any),
        };
        let free = matches!(call, Call::Open | Call::Format);
        let right = self.pair.plain.device.len();
        let (mut device, mut work) = (right, WORK_SIZE);
        if free || self.rng.one_in(2) {
            device = gen::wrong_length(&mut self.rng, right);
        }
        let allowed = device % BLOCK == 0 && (64..=4096).contains(&(device / BLOCK));
        if device == right || (free && allowed) {
            device = right + 1;
        }
        if self.rng.one_in(2) {
            (device, work) = (if free { device } else { right }, gen::wrong_length(&mut self.rng, WORK_SIZE));
            work += (work == WORK_SIZE) as usize;
        }
        let answer = self.pair.call_lengths(&call, device, work)?;
        let due = if device != right || self.model.n == 0 { 1 } else { 2 };
        match answer {
            Answer::Refused(n, _) if n == due => Ok(()),
            _ => Err(format!("{call} with lengths {device} and {work} -> {answer:?}")),
        }
    }

    // ---- cuts

    /// Session lost, work space garbled.
    fn cut(&mut self) {
        let garbage = self.rng.bytes(WORK_SIZE);
        self.pair.say(|| "  cut".into());
        self.pair.tally.cuts += 1;
        self.pair.both(|s| {
            s.session = Session::never_opened();
            s.work.copy_from_slice(&garbage);
        });
        self.model.cut();
    }

    /// A cut; then open, the recovery with further cuts in it, and the second open.
    pub fn cut_and_check(&mut self) -> Check {
        self.cut();
        if self.rng.one_in(4) {
            let call = self.generate(gen::any);
            self.step(&call)?;
        }
        while self.model.pending && self.rng.one_in(2) {
            self.step(&Call::Open)?;
            let k = self.model.k;
            self.advances(0, k + 1)?;
            self.cut();
        }
        self.recover()
    }

    fn recover(&mut self) -> Check {
        self.step(&Call::Open)?;
        if self.model.phase == Phase::Recovering {
            for _ in 0..=self.model.k {
                if self.rng.one_in(12) {
                    let call = self.generate(gen::load);
                    self.step(&call)?;
                }
                self.step(&Call::Advance)?;
            }
            if self.rng.one_in(3) {
                let call = self.generate(gen::any);
                self.step(&call)?;
            }
            self.step(&Call::Open)?;
        }
        self.sound_and_mapped()
    }

    /// The device is sound and its map is the committed one.
    pub fn sound_and_mapped(&mut self) -> Check {
        if self.model.phase != Phase::Ready {
            return Err("not ready after a commit or recovery".into());
        }
        verdict::sound_whole(&self.pair.proved.device).map_err(|e| format!("{e} after a commit or recovery"))?;
        if map_of(&self.pair.proved.device) != self.model.committed {
            return Err("the device's map is not the committed one".into());
        }
        Ok(())
    }

    /// A commit cut at each of its places.
    fn every_cut(&mut self) -> Check {
        let Answer::Started(stores) = self.step(&Call::Commit)? else { return Ok(()) };
        self.cut_everywhere(stores, None)?;
        self.cut_and_check()
    }

    /// Cuts at each place of a commit that begins, and each recovery at each of its places where there are
    /// few. The commit may be that of a line, which a load begun anew then meets again.
    pub fn cut_everywhere(&mut self, stores: u64, line: Option<&Taken>) -> Check {
        let call = line.map_or(Call::Advance, Taken::advance);
        for place in 0..=stores {
            let saved = self.save();
            for _ in 0..place {
                self.step(&call)?;
            }
            self.cut();
            let last = if stores <= 10 && self.model.pending { self.model.k + 1 } else { 0 };
            for second in 0..=last {
                let saved = self.save();
                if second > 0 {
                    self.step(&Call::Open)?;
                    for _ in 0..second {
                        self.step(&Call::Advance)?;
                    }
                    self.cut();
                }
                self.recover()?;
                line.map_or(Ok(()), |line| self.begin_anew(line))?;
                self.restore(saved);
            }
            self.restore(saved);
        }
        Ok(())
    }

    fn save(&self) -> (crate::side::State, Model) {
        (self.pair.plain.clone(), self.model.clone())
    }

    fn restore(&mut self, saved: (crate::side::State, Model)) {
        self.pair.say(|| "  back".into());
        self.pair.plain.clone_from(&saved.0);
        (self.pair.proved, self.model) = saved;
    }

    // ---- tampering

    /// Calls on a tampered session or work space; then everything is as before.
    pub fn probe(&mut self) -> Check {
        let saved = self.save();
        self.pair.tampering = true;
        for _ in 0..self.rng.range(1, 3) {
            self.tamper();
            let result = self.wild_calls();
            self.restore(saved.clone());
            result?;
        }
        self.pair.tampering = false;
        Ok(())
    }

    fn tamper(&mut self) {
        let state = &mut self.pair.plain;
        let blocks = state.device.len() / BLOCK;
        for _ in 0..self.rng.range(1, 4) {
            damage::session(&mut self.rng, &mut state.session, blocks);
        }
        if self.rng.one_in(2) {
            damage::work(&mut self.rng, state);
        }
        self.pair.proved.session.clone_from(&self.pair.plain.session);
        self.pair.proved.work.clone_from(&self.pair.plain.work);
        self.pair.say(|| format!("  tampered: {:?}", self.pair.plain.session));
    }

    /// Any calls, with no claim but that both stores agree.
    fn wild_calls(&mut self) -> Check {
        if self.rng.one_in(8) {
            self.wild_load()?;
        }
        for _ in 0..self.rng.range(2, 8) {
            let call = match self.rng.below(16) {
                0 => Call::Open,
                1 if self.rng.one_in(4) => Call::Format,
                2..=4 => Call::Advance,
                5 => Call::Commit,
                _ => self.generate(gen::any),
            };
            self.pair.call(&call)?;
        }
        Ok(())
    }

    /// A damaged device: open, then all calls with a forged ready session, then commits and opens.
    fn damaged(&mut self, shape: &Shape) -> Check {
        let mut device = sound_device(&mut self.rng, shape);
        if self.rng.one_in(2) {
            mix_records(&mut self.rng, &mut device);
        }
        self.model = Model::new(map_of(&device), shape.blocks);
        self.pair.tampering = true;
        self.faulty_opens(&device)?;
        for _ in 0..self.rng.range(1, 3) {
            let n = self.rng.pick(&[1, 1, 1, 2, 3, 6]);
            (0..n).for_each(|_| damage::device(&mut self.rng, &mut device));
            self.place(&device);
            self.pair.call(&Call::Open)?;
            self.wild_recovery()?;
            self.forged_calls(shape.blocks)?;
            if self.rng.one_in(2) {
                self.tamper();
                self.wild_calls()?;
            }
        }
        Ok(())
    }

    /// Both sides get a device, and a session never opened.
    fn place(&mut self, device: &[u8]) {
        self.pair.both(|s| {
            s.device.copy_from_slice(device);
            s.session = Session::never_opened();
        });
    }

    /// Copies of a sound device with faults in them are opened, some of them behind a recovery.
    fn faulty_opens(&mut self, sound: &[u8]) -> Check {
        let most = if sound.len() > 700 * BLOCK { 4 } else { 24 };
        for _ in 0..self.rng.range(2, most) {
            let mut device = sound.to_vec();
            faults::several(&mut self.rng, &mut device);
            if self.rng.one_in(4) {
                let device = faults::with_log(&mut self.rng, sound, &device);
                self.place(&device);
                self.forged_recovery()?;
            } else {
                self.place(&device);
            }
            if self.rng.one_in(4) {
                self.tamper();
            }
            self.pair.call(&Call::Open)?;
        }
        Ok(())
    }

    /// A recovery to its end, cut once in a while.
    fn forged_recovery(&mut self) -> Check {
        for _ in 0..self.rng.range(0, 2) {
            self.pair.call(&Call::Open)?;
            for _ in 0..self.rng.index(34) {
                self.pair.call(&Call::Advance)?;
            }
            self.pair.both(|s| s.session = Session::never_opened());
        }
        self.pair.call(&Call::Open)?;
        while matches!(self.pair.call(&Call::Advance)?, Answer::Stored { .. }) {}
        Ok(())
    }

    /// A commit block that was forged, but is accepted, is redone.
    fn wild_recovery(&mut self) -> Check {
        if self.pair.plain.session.phase == plain::Phase::Recovering(0) {
            for _ in 0..self.rng.range(0, 34) {
                self.pair.call(&Call::Advance)?;
            }
            self.pair.call(&Call::Open)?;
        }
        Ok(())
    }

    fn forged_calls(&mut self, blocks: usize) -> Check {
        let forge = |pair: &mut Pair| pair.both(|s| s.session = Session::fresh(blocks, plain::Phase::Ready));
        forge(&mut self.pair);
        if self.rng.one_in(3) {
            let b = self.rng.index(46);
            let clear = self.rng.one_in(3);
            self.pair.both(|s| s.device[33 * BLOCK + b / 8] &= !((clear as u8) << (b % 8)));
            self.wild_load()?;
            forge(&mut self.pair);
        }
        let whole = |a: &Name| [Call::RunList(a.clone(), 0, u64::MAX, 513), Call::Read(a.clone(), 0, 5000), Call::Size(a.clone())];
        for call in self.names.clone().iter().flat_map(whole) {
            self.pair.call(&call)?;
        }
        for _ in 0..self.rng.range(4, 16) {
            let make = if self.rng.one_in(3) { gen::query } else { gen::change };
            let call = self.generate(make);
            self.pair.call(&call)?;
            if self.rng.one_in(10) {
                self.pair.call(&Call::Abort)?;
            }
        }
        self.pair.call(&Call::Commit)?;
        while matches!(self.pair.call(&Call::Advance)?, Answer::Stored { .. }) {}
        self.pair.call(&Call::Open)?;
        Ok(())
    }
}
