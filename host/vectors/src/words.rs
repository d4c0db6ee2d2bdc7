//! Files as sequences of 32-bit little-endian words: writing and reading of the pieces that
//! all cases are made of.

use crate::limits::{within, CHILD_BYTES, NODE_BYTES};
use cases::calls::PriorBytes;
use recount::limits::PLACE_BYTES;
use recount::{Address, Refusal};

const NAN_BITS: u64 = 0x7ff8_0000_0000_0000;

/// A case as it is written.
#[derive(Debug, Default)]
pub struct Case(pub Vec<u32>);

impl Case {
    pub fn word(&mut self, word: u32) {
        self.0.push(word);
    }

    /// A figure: low word, high word; NaN in one form.
    pub fn figure(&mut self, figure: f64) {
        let bits = if figure.is_nan() { NAN_BITS } else { figure.to_bits() };
        self.0.extend([bits as u32, (bits >> 32) as u32]);
    }

    pub fn address(&mut self, address: Address) {
        self.0.extend([address.scale as u32, address.point]);
    }

    /// The length in bytes, then the bytes, zeros up to a whole word.
    pub fn bytes(&mut self, bytes: &[u8]) {
        self.word(bytes.len() as u32);
        self.0.extend(words_of(bytes, 0));
    }

    /// The number of words, then the words.
    pub fn words(&mut self, words: &[u32]) {
        self.word(words.len() as u32);
        self.0.extend(words);
    }

    /// The number of figures, then the figures.
    pub fn figures(&mut self, figures: &[f64]) {
        self.word(figures.len() as u32);
        for figure in figures {
            self.figure(*figure);
        }
    }

    /// Node records and child records as bytes, then the floor's 32 bits.
    pub fn priors(&mut self, priors: &PriorBytes) {
        self.bytes(&priors.nodes);
        self.bytes(&priors.children);
        self.word(priors.floor as u32);
    }

    /// Queue places: the length in bytes, then for each 516 bytes, the last maybe fewer, a
    /// word that the piece ends in, how many words come before that, and those words.
    pub fn places(&mut self, bytes: &[u8]) {
        self.word(bytes.len() as u32);
        for piece in bytes.chunks(PLACE_BYTES) {
            let words = words_of(piece, piece[piece.len() - 1]);
            let ending = words[words.len() - 1];
            let given = words.iter().rposition(|word| *word != ending).map_or(0, |last| last + 1);
            self.word(ending);
            self.words(&words[..given]);
        }
    }

    /// The number, 0 where nothing is refused, and the node, zeros where none is named.
    pub fn refusal(&mut self, refusal: Option<Refusal>) {
        self.word(refusal.map_or(0, |refusal| refusal.number));
        self.address(refusal.and_then(|refusal| refusal.node).unwrap_or_default());
    }
}

/// The words of `bytes`, the last one filled up with `filling`.
fn words_of(bytes: &[u8], filling: u8) -> Vec<u32> {
    let word = |part: &[u8]| {
        let mut whole = [filling; 4];
        whole[..part.len()].copy_from_slice(part);
        u32::from_le_bytes(whole)
    };
    bytes.chunks(4).map(word).collect()
}

/// The sum over bytes that stands for a book or a queue.
pub fn checksum(bytes: &[u8]) -> u32 {
    bytes.iter().fold(0, |sum: u32, byte| sum.wrapping_mul(31).wrapping_add(u32::from(*byte) + 1))
}

/// A whole file: magic word, number of cases, each case after its number of words.
pub fn file(magic: [u8; 4], cases: Vec<Case>) -> Vec<u8> {
    let mut words = vec![u32::from_le_bytes(magic), cases.len() as u32];
    for case in cases {
        words.push(case.0.len() as u32);
        words.extend(case.0);
    }
    words.into_iter().flat_map(u32::to_le_bytes).collect()
}

/// The cases of a file.
pub fn open_file(magic: [u8; 4], bytes: &[u8]) -> Result<Vec<Vec<u32>>, String> {
    if !bytes.len().is_multiple_of(4) {
        return Err("no whole number of words".to_string());
    }
    let words = words_of(bytes, 0);
    let mut reader = Reader::new(&words);
    reader.expect(&[u32::from_le_bytes(magic)])?;
    let cases = (0..reader.word()?).map(|_| reader.counted_words()).collect::<Result<_, _>>()?;
    reader.end()?;
    Ok(cases)
}

/// Reads words in order.
pub struct Reader<'a> {
    words: &'a [u32],
    at: usize,
}

impl<'a> Reader<'a> {
    pub fn new(words: &'a [u32]) -> Reader<'a> {
        Reader { words, at: 0 }
    }

    fn take(&mut self, count: usize) -> Result<&'a [u32], String> {
        let taken = self.words.get(self.at..self.at + count).ok_or("the words end too early")?;
        self.at += count;
        Ok(taken)
    }

    pub fn word(&mut self) -> Result<u32, String> {
        Ok(self.take(1)?[0])
    }

    pub fn figure(&mut self) -> Result<f64, String> {
        let words = self.take(2)?;
        Ok(f64::from_bits(u64::from(words[0]) | u64::from(words[1]) << 32))
    }

    pub fn address(&mut self) -> Result<Address, String> {
        let words = self.take(2)?;
        Ok(Address::new(words[0] as i32, words[1]))
    }

    pub fn bytes(&mut self) -> Result<Vec<u8>, String> {
        let length = self.word()? as usize;
        let words = self.take(length.div_ceil(4))?;
        let mut bytes: Vec<u8> = words.iter().flat_map(|word| word.to_le_bytes()).collect();
        bytes.truncate(length);
        Ok(bytes)
    }

    pub fn counted_words(&mut self) -> Result<Vec<u32>, String> {
        let count = self.word()? as usize;
        Ok(self.take(count)?.to_vec())
    }

    pub fn figures(&mut self) -> Result<Vec<f64>, String> {
        (0..self.word()?).map(|_| self.figure()).collect()
    }

    /// Priors within the sizes of the README.
    pub fn priors(&mut self) -> Result<PriorBytes, String> {
        let (nodes, children) = (self.bytes()?, self.bytes()?);
        within("node records", nodes.len(), NODE_BYTES)?;
        within("child records", children.len(), CHILD_BYTES)?;
        Ok(PriorBytes { nodes, children, floor: self.word()? as i32 })
    }

    pub fn places(&mut self) -> Result<Vec<u8>, String> {
        let length = self.word()? as usize;
        let mut bytes = Vec::new();
        while bytes.len() < length {
            let piece = PLACE_BYTES.min(length - bytes.len());
            let ending = self.word()?;
            let mut words = self.counted_words()?;
            words.resize(piece.div_ceil(4), ending);
            bytes.extend(words.iter().flat_map(|word| word.to_le_bytes()).take(piece));
        }
        Ok(bytes)
    }

    /// The next words must be these.
    pub fn expect(&mut self, words: &[u32]) -> Result<(), String> {
        let start = self.at;
        let recorded = self.take(words.len())?;
        match recorded.iter().zip(words).position(|(recorded, now)| recorded != now) {
            None => Ok(()),
            Some(place) => Err(format!(
                "word {}: recorded {:#x}, now {:#x}",
                start + place,
                recorded[place],
                words[place]
            )),
        }
    }

    /// All words must have been read.
    pub fn end(&self) -> Result<(), String> {
        if self.at == self.words.len() {
            Ok(())
        } else {
            Err(format!("{} words are left over", self.words.len() - self.at))
        }
    }
}
