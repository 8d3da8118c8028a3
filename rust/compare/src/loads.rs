//! The loads of a list: whole files, cuts inside them, and boxes that are nearly full.

use crate::cards::{line_at, Card};
use crate::gen;
use crate::image::{free_of, map_of, name_of};
use crate::lists::Driver;
use crate::model::Map;
use crate::monday;
use crate::pair::Check;
use crate::side::{Answer, Call, Text};
use std::rc::Rc;

/// A line that was taken up.
pub struct Taken {
    text: Text,
    place: usize,
    /// The place that the step handed back.
    next: usize,
}

impl Taken {
    /// The step that makes the next store.
    pub fn advance(&self) -> Call {
        Call::LoadStep(self.text.clone(), self.next)
    }

    fn card(&self) -> Check<Card> {
        line_at(&self.text, self.place).and_then(|l| l.card.ok()).ok_or("a line was taken up that has no card".into())
    }
}

/// How a load stands: the place, the lines kept, and the card of the line that ended it.
#[derive(Default)]
struct Load {
    text: Text,
    place: usize,
    kept: Vec<Card>,
    refused: Option<Card>,
    ended: bool,
}

impl Driver {
    /// A few loads.
    pub fn loads(&mut self) -> Check {
        self.nothing_staged()?;
        match self.rng.below(16) {
            0..=3 => self.fill_blocks()?,
            4 => self.fill_records()?,
            _ => {}
        }
        for _ in 0..self.rng.range(1, 2) {
            self.load_file()?;
        }
        self.faulty_lines()
    }

    /// Files of one line with a fault. It may be right all the same, and is then loaded.
    fn faulty_lines(&mut self) -> Check {
        for _ in 0..self.rng.range(4, 16) {
            let card = monday::card(&mut self.rng);
            let text = Rc::new(monday::damaged(&mut self.rng, &card));
            self.line(&mut Load { text, ..Load::default() }, 0)?;
        }
        Ok(())
    }

    /// While something is staged, no load begins; then it is committed or aborted.
    fn nothing_staged(&mut self) -> Check {
        if self.pair.plain.session.count == 0 {
            return Ok(());
        }
        for _ in 0..2 {
            let call = self.generate(gen::load);
            self.step(&call)?;
        }
        if self.rng.one_in(2) {
            return self.commit_whole();
        }
        self.step(&Call::Abort).map(|_| ())
    }

    /// Few free blocks are left, on small devices.
    fn fill_blocks(&mut self) -> Check {
        let (name, left) = (name_of(300).to_vec(), self.rng.index(4));
        self.step(&Call::Create(name.clone()))?;
        for _ in 0..6 {
            let more = free_of(&self.working()).saturating_sub(left).min(28);
            let size = self.model.working.get(&name[..]).map_or(0, |f| f.len());
            self.step(&Call::SetSize(name.clone(), (size + more * 512) as u64))?;
            self.commit_whole()?;
        }
        Ok(())
    }

    /// Few empty records are left.
    fn fill_records(&mut self) -> Check {
        let most = 128 - self.rng.index(4);
        for i in 400..528 {
            if self.model.working.len() < most {
                self.step(&Call::Create(name_of(i).to_vec()))?;
            }
        }
        self.commit_whole()
    }

    /// A file from its first line on, until none is left or one is refused; then its lines one by one.
    fn load_file(&mut self) -> Check {
        let text = Rc::new(monday::file(&mut self.rng, &self.cards));
        let before = self.model.committed.clone();
        let mut load = Load { text, ..Load::default() };
        self.step(&Call::LoadBegin)?;
        while !load.ended {
            let place = if self.rng.one_in(10) { monday::place(&mut self.rng, &load.text) } else { load.place };
            self.line(&mut load, place)?;
            if self.rng.one_in(25) {
                self.wrong_lengths()?;
            }
        }
        self.line_by_line(before, &load)?;
        self.cards.extend(load.kept);
        Ok(())
    }

    /// One line, its commit included. A load ends where its own next line is refused or there is none.
    fn line(&mut self, load: &mut Load, place: usize) -> Check {
        match self.step(&Call::LoadStep(load.text.clone(), place))? {
            Answer::Started(stores) => {
                let taken = Taken { text: load.text.clone(), place, next: self.pair.lent.place };
                load.place = taken.next;
                self.stores(load, &taken, stores)
            }
            Answer::Refused(16, _) if free_of(&self.pair.proved.device) > 0 => Err("16 though a block is free".into()),
            _ => {
                load.ended = place == load.place;
                load.refused = line_at(&load.text, place).and_then(|l| l.card.ok());
                Ok(())
            }
        }
    }

    /// The stores of a line's commit, with cuts and other calls between them.
    fn stores(&mut self, load: &mut Load, taken: &Taken, stores: u64) -> Check {
        let card = taken.card()?;
        if self.rng.one_in(if self.model.blocks > 256 { 200 } else { 30 }) {
            self.cut_everywhere(stores, Some(taken))?;
        }
        let cut = self.rng.one_in(12);
        let made = if cut { self.rng.range(0, stores) } else { stores };
        for _ in 0..made {
            self.between()?;
            let call = if self.rng.one_in(8) { Call::Advance } else { taken.advance() };
            self.step(&call)?;
        }
        if cut {
            self.cut_and_check()?;
            self.step(&Call::LoadBegin)?;
            load.place = self.rng.pick(&[0, taken.place, taken.next]);
        } else {
            self.sound_and_mapped()?;
        }
        if 2 * made >= stores {
            load.kept.push(card);
        }
        Ok(())
    }

    /// A call between two stores that changes nothing.
    fn between(&mut self) -> Check {
        match self.rng.below(60) {
            0 => self.step(&Call::LoadBegin).map(|_| ()),
            1 => {
                let call = self.generate(gen::query);
                self.step(&call).map(|_| ())
            }
            2 => self.wrong_lengths(),
            3 => self.probe(),
            _ => Ok(()),
        }
    }

    /// After a cut and the recovery: the line again, which was kept or is taken up now.
    pub fn begin_anew(&mut self, taken: &Taken) -> Check {
        let card = taken.card()?;
        self.step(&Call::LoadBegin)?;
        if let Answer::Started(stores) = self.step(&Call::LoadStep(taken.text.clone(), taken.place))? {
            for _ in 0..stores {
                self.step(&taken.advance())?;
            }
        }
        self.sound_and_mapped()?;
        self.holds(&card)
    }

    /// "the map must be exact down to the last byte": it has the lines kept and nothing else is new.
    fn line_by_line(&mut self, before: Map, load: &Load) -> Check {
        let mut map = before;
        for card in &load.kept {
            if map.insert(card.name(), Rc::new(card.content().to_vec())).is_some() {
                return Err(format!("a load took {card:?} up twice"));
            }
        }
        if map_of(&self.pair.proved.device) != map {
            return Err("the map behind a load is not the one before it and its lines".into());
        }
        load.kept.iter().try_for_each(|card| self.holds(card))?;
        match &load.refused {
            Some(card) if !map.contains_key(&card.name()) => self.step(&Call::Size(card.name().to_vec())).map(|_| ()),
            _ => Ok(()),
        }
    }

    /// The card's file is its 8 bytes and no more.
    fn holds(&mut self, card: &Card) -> Check {
        let answer = self.step(&Call::Read(card.name().to_vec(), 0, 9))?;
        if answer == Answer::Counted(8) && self.pair.lent.buffer[..8] == card.content() {
            return Ok(());
        }
        Err(format!("the file of {card:?} is another"))
    }

    /// Steps of a load on a state that nobody's list made.
    pub fn wild_load(&mut self) -> Check {
        let text = Rc::new(monday::file(&mut self.rng, &self.cards));
        let mut place = if self.rng.one_in(4) { monday::place(&mut self.rng, &text) } else { 0 };
        self.pair.call(&Call::LoadBegin)?;
        for _ in 0..self.rng.range(1, 30) {
            let answer = self.pair.call(&Call::LoadStep(text.clone(), place))?;
            place = self.pair.lent.place;
            if matches!(answer, Answer::Refused(..)) && !self.rng.one_in(4) {
                break;
            }
        }
        Ok(())
    }
}
