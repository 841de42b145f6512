//! Times loops over a file with the crates `elf` and `object`, and with our library through C.
//!
//! `peers FILE THERE ABSENT TURNS WORD=PASSES..`: FILE is a 64-bit ELF file. THERE has the names of dynamic symbols, one a
//! line, and ABSENT has names that no dynamic symbol has. Each WORD is a level and a loop, for example `elf.symbols`. In
//! each turn, each loop makes PASSES passes. The program prints a line for each WORD: the word, the checksum, and the
//! nanoseconds of the fastest turn. A pass adds to the checksum of the pass before it.
use std::error::Error;
use std::hint::black_box;
use std::time::Instant;
use std::{env, fs};

#[cfg(feature = "nugwier")]
mod in_bulk;
#[cfg(feature = "elf")]
mod with_elf;
// `benches/table peers` makes this file of `with_elf.rs`: our crate has the names of the crate `elf`.
#[cfg(feature = "nugwier")]
mod with_nugwier;
#[cfg(feature = "object")]
mod with_object;

type Fallible<T> = Result<T, Box<dyn Error>>;

/// What the loops read: the bytes of the file, and the names of sections and of symbols that are looked up.
pub struct Input<'data> {
    pub data: &'data [u8],
    pub section: &'static str,
    pub no_section: &'static str,
    pub there: Vec<&'data str>,
    pub absent: Vec<&'data str>,
}

/// The loops of a level, by their names, over a file that is open.
pub trait Loops {
    /// Returns the checksum of this number of passes of a loop. `None` if this level has no such loop.
    fn turn(&self, name: &str, passes: u64) -> Option<Fallible<u64>>;
}

/// Returns the checksum of this number of passes. A pass takes the sum of the passes before it, and returns the sum with
/// its own. Each pass gets `over` from a `black_box`, so the compiler cannot merge the passes.
pub fn repeated<T>(
    passes: u64,
    over: &T,
    pass: impl Fn(&T, u64) -> Fallible<u64>,
) -> Fallible<u64> {
    let mut sum = 0;
    for _ in 0..passes {
        sum = pass(black_box(over), sum)?;
    }
    Ok(sum)
}

/// Returns the error of a loop for which the file lacks something, for example a symbol table.
pub fn lacking<T>(what: &str) -> Fallible<T> {
    Err(format!("the file has no {what}").into())
}

fn opened<'input>(level: &str, input: &'input Input<'input>) -> Fallible<Box<dyn Loops + 'input>> {
    match level {
        #[cfg(feature = "elf")]
        "elf" => Ok(Box::new(with_elf::Elf::open(input)?)),
        #[cfg(feature = "nugwier")]
        "c" => Ok(Box::new(with_nugwier::Elf::open(input)?)),
        #[cfg(feature = "nugwier")]
        "bulk" => Ok(Box::new(in_bulk::InBulk::open(input)?)),
        #[cfg(feature = "object")]
        "high" => Ok(Box::new(with_object::high::High::open(input)?)),
        #[cfg(feature = "object")]
        "low" => Ok(Box::new(with_object::low::Low::open(input)?)),
        _ => Err(format!("no level {level}").into()),
    }
}

/// A loop, the passes of a turn, the checksum of a turn, and the nanoseconds of the fastest turn.
struct Timed<'input> {
    word: String,
    name: String,
    loops: Box<dyn Loops + 'input>,
    passes: u64,
    sum: u64,
    least: u128,
}

impl<'input> Timed<'input> {
    fn new(word: &str, input: &'input Input<'input>) -> Fallible<Self> {
        let (word, passes) = word
            .split_once('=')
            .ok_or("a word has a number of passes")?;
        let (level, name) = word.split_once('.').ok_or("a word has a level")?;
        Ok(Timed {
            word: word.to_string(),
            name: name.to_string(),
            loops: opened(level, input)?,
            passes: passes.parse()?,
            sum: 0,
            least: u128::MAX,
        })
    }

    // A pass before the turn is not timed. It brings what the loop reads into the caches, whichever loop ran before.
    fn turn(&mut self) -> Fallible<()> {
        self.passed(1)?;
        let start = Instant::now();
        self.sum = self.passed(self.passes)?;
        self.least = self.least.min(start.elapsed().as_nanos());
        Ok(())
    }

    fn passed(&self, passes: u64) -> Fallible<u64> {
        self.loops.turn(&self.name, passes).ok_or("no such loop")?
    }
}

fn main() -> Fallible<()> {
    let words: Vec<String> = env::args().skip(1).collect();
    let [path, there, absent, turns, words @ ..] = words.as_slice() else {
        return Err("FILE THERE ABSENT TURNS WORD=PASSES..".into());
    };
    let data = fs::read(path)?;
    let (there, absent) = (fs::read_to_string(there)?, fs::read_to_string(absent)?);
    let input = Input {
        data: &data,
        section: ".data",
        no_section: ".absent",
        there: there.lines().collect(),
        absent: absent.lines().collect(),
    };
    let mut all = Vec::new();
    for word in words {
        all.push(Timed::new(word, &input)?);
    }
    for _ in 0..turns.parse::<u32>()? {
        for timed in &mut all {
            timed
                .turn()
                .map_err(|error| format!("{}: {error}", timed.word))?;
        }
    }
    for timed in &all {
        println!("{} {} {}", timed.word, timed.sum, timed.least);
    }
    Ok(())
}
