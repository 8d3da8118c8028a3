//! A box in a folder: what the tests of single commands are tried on.

use super::*;

/// A box in a folder, and the tool in that folder.
pub struct Place {
    pub scratch: Scratch,
}

impl Place {
    pub fn new(image: &[u8]) -> Place {
        let scratch = Scratch::new("commands");
        scratch.file("box.img", image);
        Place { scratch }
    }

    pub fn tool(&self, words: &[&str]) -> Tool {
        tool(words).folder(&self.scratch.path)
    }

    /// Runs and asks for a status.
    pub fn run(&self, status: i32, words: &[&str]) -> Out {
        let out = self.tool(words).run();
        assert_eq!(out.status, status, "{words:?}: {}{}", out.text(), out.err);
        let beside = ["recovered an earlier change", "removing FFFFFFFFFFFFFFFF", "the box is sound"];
        let told = out.err.lines().any(|l| !beside.iter().any(|b| l.starts_with(b)));
        assert_eq!(status != 0, told, "{words:?}: standard error: {:?}", out.err);
        out
    }

    /// A refusal by the store: status 1, number and sentence, and the image stays.
    pub fn refused(&self, number: u32, words: &[&str]) {
        let before = self.image();
        let out = self.run(1, words);
        assert!(out.err.contains(&format!("refused {number}")), "{words:?}: {}", out.err);
        assert!(out.err.trim_end().len() > format!("refused {number}").len() + 5, "{words:?}: no sentence: {}", out.err);
        assert!(self.image() == before, "{words:?}: refused, but the image is another");
    }

    pub fn image(&self) -> Vec<u8> {
        fs::read(self.scratch.at("box.img")).unwrap()
    }

    pub fn map(&self) -> Map {
        let image = self.image();
        assert!(matches!(look(&image), Seen::Sound { .. }), "{}", listing(&image));
        map_of(&image)
    }

    pub fn list(&self) -> String {
        let out = self.run(0, &["list", "box.img"]);
        assert_eq!(out.text(), listing(&self.image()));
        out.text()
    }

    pub fn file(&self, name: &str, bytes: &[u8]) {
        self.scratch.file(name, bytes);
    }
}
