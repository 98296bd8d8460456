//! The command line.

pub const USAGE: &str = "\
usage: generate FAMILY [--seed N] [--count N] [--max N] [--leaves N] [--atoms HEX,HEX,..] [--names] [--text]
families: bytes, path-bytes (--max: bytes in a form or in a path, to 3)
          small (--leaves: 1 to 4; --atoms: which, nil being an empty word)
          code, kept, damaged, large, rule-1 to rule-8, pairs-match, pairs-place, pairs-eval, trees, path-atoms (--seed, --count)
          spelled (--seed, --count: forms, each on two lines)
          shared, path-rows (--seed, --count: random ones after the fixed ones)
          limits, lengths, repeats, wide, deep, pairs-deep
          texts-damaged, texts-bytes, texts-growing, texts-pairs (--seed, --count), texts-border,
          texts-small (--leaves: tokens in a text, at most): texts in the readable notation
--names puts a name before each form
--text prints the texts of the trees, in spellings by chance; of two, each on a line of its own";

pub struct Options {
    pub family: String,
    pub seed: u64,
    pub count: u64,
    pub max: usize,
    pub leaves: usize,
    pub atoms: Option<Vec<Vec<u8>>>,
    pub names: bool,
    /// Texts in the readable notation, and not hex.
    pub text: bool,
}

impl Options {
    pub fn read() -> Result<Self, String> {
        Options::from(std::env::args().skip(1))
    }

    pub fn from(mut words: impl Iterator<Item = String>) -> Result<Self, String> {
        let family = words.next().ok_or("which family?")?;
        let text = family.starts_with("texts-");
        let mut options = Options { family, seed: 1, count: 1000, max: 3, leaves: 3, atoms: None, names: false, text };
        while let Some(word) = words.next() {
            if word == "--names" {
                options.names = true;
                continue;
            }
            if word == "--text" {
                options.text = true;
                continue;
            }
            let value = words.next().ok_or(format!("{word} wants a value"))?;
            options.set(&word, &value)?;
        }
        Ok(options)
    }

    fn set(&mut self, word: &str, value: &str) -> Result<(), String> {
        match word {
            "--seed" => self.seed = number(value)?,
            "--count" => self.count = number(value)?,
            "--max" => self.max = number(value)?.min(3) as usize,
            "--leaves" => self.leaves = number(value)? as usize,
            "--atoms" => self.atoms = Some(value.split(',').map(atom).collect::<Result<_, _>>()?),
            _ => return Err(format!("no option is called {word}")),
        }
        Ok(())
    }
}

fn number(text: &str) -> Result<u64, String> {
    text.parse().map_err(|_| format!("{text} is not a number"))
}

fn atom(text: &str) -> Result<Vec<u8>, String> {
    let digits: Option<Vec<u32>> = text.chars().map(|c| c.to_digit(16)).collect();
    match digits {
        Some(digits) if digits.len() % 2 == 0 => Ok(digits.chunks(2).map(|d| (d[0] * 16 + d[1]) as u8).collect()),
        _ => Err(format!("{text} is not hex")),
    }
}
