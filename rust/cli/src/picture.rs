//! The map of a box: a mark for each block, in text and as a picture.

use std::fmt::Write;

use purse::{Extent, Refusal, Store, BLOCK_SIZE, EXTENTS_MOST, RECORDS};

use crate::name::Name;

/// Marks for the purses, those of the areas and of extent blocks left out. They repeat where there are more purses.
const LETTERS: &[u8; 57] = b"0123456789ADEFGHIJKMNOPQSTUVWXYZabcdefghijklmnopqrstuvwyz";

const LEGEND: &str = "C commit block, L log, B bit table, R file records, x extent block, . free";

/// What a block is used for.
#[derive(Clone, Copy, PartialEq, Debug)]
pub enum Use {
    Commit,
    Log,
    Bits,
    Records,
    /// Data of the purse in a record.
    Data(usize),
    Extents,
    Free,
}

/// A purse: its record, name and size.
pub type Purse = (usize, Name, u64);

/// What each block of an opened box is used for, and the purses.
pub struct Picture {
    pub blocks: Vec<Use>,
    pub purses: Vec<Purse>,
}

impl Picture {
    /// The picture that the store's calls give. A block in use that no run list has is an extent block.
    pub fn of(store: &Store) -> Result<Picture, Refusal> {
        let count = store.image().len() / BLOCK_SIZE;
        let table = store.block(33);
        let in_use = |b: usize| table[b / 8] >> (b % 8) & 1 == 1;
        let mut blocks: Vec<Use> = (0..count).map(|b| area(b, in_use(b))).collect();
        let mut purses = Vec::new();
        for i in 0..RECORDS {
            if let Some(file) = store.record(i as u64)? {
                purses.push((i, Name(file.name), file.size));
                let mut list = [Extent::default(); EXTENTS_MOST];
                let n = store.run_list(&file.name, 0, u64::MAX, &mut list)?;
                for e in &list[..n] {
                    blocks[e.first as usize..][..e.count as usize].fill(Use::Data(i));
                }
            }
        }
        Ok(Picture { blocks, purses })
    }

    /// 64 marks to a line, what they mean, and a line for each purse.
    pub fn text(&self, coloured: bool) -> String {
        let mut text = String::new();
        for line in self.blocks.chunks(64) {
            line.iter().for_each(|&u| paint(&mut text, u, coloured));
            text.push('\n');
        }
        text.push_str(LEGEND);
        text.push('\n');
        for &(i, name, size) in &self.purses {
            paint(&mut text, Use::Data(i), coloured);
            let _ = writeln!(text, " {name} {size}");
        }
        text
    }

    /// A picture for a browser: a square for each block, 64 to a row, and the purses below.
    pub fn svg(&self) -> String {
        let rows = self.blocks.len().div_ceil(64);
        let (width, height) = (64 * 14 + 20, rows * 14 + 46 + self.purses.len() * 18);
        let mut svg = format!(
            "<svg xmlns=\"http://www.w3.org/2000/svg\" width=\"{width}\" height=\"{height}\" font-family=\"monospace\" font-size=\"12\">\n\
             <rect width=\"100%\" height=\"100%\" fill=\"#ffffff\"/>\n"
        );
        for (b, &u) in self.blocks.iter().enumerate() {
            let (x, y) = (10 + b % 64 * 14, 10 + b / 64 * 14);
            let _ = writeln!(
                svg,
                "<rect x=\"{x}\" y=\"{y}\" width=\"12\" height=\"12\" fill=\"{}\"><title>{b} {}</title></rect>",
                fill(u),
                self.title(u)
            );
        }
        let mut y = rows * 14 + 32;
        let _ = writeln!(
            svg,
            "<text x=\"10\" y=\"{y}\">dark: commit block, log, bit table and records; black: extent block; pale: free</text>"
        );
        for &(i, name, size) in &self.purses {
            y += 18;
            let (box_y, colour) = (y - 10, fill(Use::Data(i)));
            let _ = writeln!(
                svg,
                "<rect x=\"10\" y=\"{box_y}\" width=\"12\" height=\"12\" fill=\"{colour}\"/><text x=\"30\" y=\"{y}\">{name} {size}</text>"
            );
        }
        svg.push_str("</svg>\n");
        svg
    }

    fn title(&self, u: Use) -> String {
        match u {
            Use::Commit => "commit block".into(),
            Use::Log => "log".into(),
            Use::Bits => "bit table".into(),
            Use::Records => "file records".into(),
            Use::Extents => "extent block".into(),
            Use::Free => "free".into(),
            Use::Data(i) => self.purses.iter().find(|p| p.0 == i).map_or(String::new(), |p| p.1.to_string()),
        }
    }
}

fn area(block: usize, in_use: bool) -> Use {
    match block {
        0 => Use::Commit,
        1..=32 => Use::Log,
        33 => Use::Bits,
        34..=41 => Use::Records,
        _ if in_use => Use::Extents,
        _ => Use::Free,
    }
}

fn mark(u: Use) -> char {
    match u {
        Use::Commit => 'C',
        Use::Log => 'L',
        Use::Bits => 'B',
        Use::Records => 'R',
        Use::Extents => 'x',
        Use::Free => '.',
        Use::Data(i) => char::from(LETTERS[i % LETTERS.len()]),
    }
}

/// A mark, in one of 216 colours of a terminal where it belongs to a purse.
fn paint(text: &mut String, u: Use, coloured: bool) {
    match u {
        Use::Data(i) if coloured => {
            let (r, g, b) = colour(i);
            let shade = 16 + 36 * (r / 51) + 6 * (g / 51) + b / 51;
            let _ = write!(text, "\x1b[30;48;5;{shade}m{}\x1b[0m", mark(u));
        }
        Use::Free | Use::Data(_) => text.push(mark(u)),
        _ if coloured => {
            let _ = write!(text, "\x1b[2m{}\x1b[0m", mark(u));
        }
        _ => text.push(mark(u)),
    }
}

/// A light colour for a record: neighbours differ.
fn colour(record: usize) -> (usize, usize, usize) {
    const TONES: [usize; 4] = [102, 153, 204, 255];
    let k = record * 27 % 64;
    (TONES[k / 16], TONES[k / 4 % 4], TONES[k % 4])
}

fn fill(u: Use) -> String {
    match u {
        Use::Commit => "#5b3a29".into(),
        Use::Log => "#7d8597".into(),
        Use::Bits => "#33415c".into(),
        Use::Records => "#5c677d".into(),
        Use::Extents => "#000000".into(),
        Use::Free => "#eeeeee".into(),
        Use::Data(i) => {
            let (r, g, b) = colour(i);
            format!("#{r:02x}{g:02x}{b:02x}")
        }
    }
}

#[cfg(test)]
mod tests {
    use super::*;
    use purse::WORK_SIZE;

    fn picture() -> Picture {
        let (mut image, mut work) = (vec![0; 64 * 512], vec![0; WORK_SIZE]);
        let mut store = Store::new(&mut image, &mut work);
        store.format().unwrap();
        store.open().unwrap();
        store.create(b"card000A").unwrap();
        store.create(b"card000B").unwrap();
        for k in 1..=5 {
            store.set_size(b"card000A", 512 * k).unwrap();
            store.set_size(b"card000B", 512 * k).unwrap();
        }
        store.commit_in_memory().unwrap();
        Picture::of(&store).unwrap()
    }

    #[test]
    fn marks() {
        let text = picture().text(false);
        assert_eq!(text.lines().next(), Some("CLLLLLLLLLLLLLLLLLLLLLLLLLLLLLLLLBRRRRRRRR010101010x1x.........."));
        assert_eq!(text.lines().nth(2), Some("0 6361726430303041 2560"));
        assert!(picture().text(true).contains("\x1b[0m"));
    }

    #[test]
    fn one_square_for_each_block() {
        let svg = picture().svg();
        assert_eq!(svg.matches("<title>").count(), 64);
        assert!(svg.contains("<title>42 6361726430303041</title>"));
    }
}
