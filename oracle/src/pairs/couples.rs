//! Couples of files, which may be a pair: a file and its mask, and what becomes of the two by small changes.

use super::AT_THE_LIMIT;
use crate::answers::Outcome;
use crate::damage;
use crate::field::{self, Field};
use crate::masker::Question;
use crate::pair;
use crate::random::Random;
use crate::tags::*;

/// A pair of at most so many bytes is read at every place.
const EVERY_PLACE: usize = 400;

/// Of a longer one so many texts are read, and as many other places are tried.
const MANY: usize = 20;

/// In a file that is too long for every byte to be changed so many are.
const SOME_BYTES: usize = 5;

/// What is put behind a file: nodes, and bytes that are no field.
const MORE: [&[u8]; 7] = [
    &[BREAKING_ONLY_SPACE, 0, 0],
    &[TEXT, 0, 4, TEXT_BYTES, 0, 1, b'x'],
    &[IF_BLOCK_LAYOUT, 0, 1, b'a'],
    &[IF_BLOCK_LAYOUT, 0, 2, b'x'],
    &[0],
    &[TEXT, 0],
    &[99, 0, 0],
];

/// Two files, and the places that they are read at.
pub struct Couple {
    original: Vec<u8>,
    second: Vec<u8>,
    places: Vec<u32>,
}

impl Couple {
    /// Each place asked for, with what is right.
    pub fn questions(&self) -> impl Iterator<Item = (Question<'_>, Outcome)> {
        let (original, second) = (&self.original, &self.second);
        let texts = pair::texts(original, second);
        self.places.iter().map(move |place| {
            let place = *place;
            let question = Question::Pair {
                original,
                second,
                place,
            };
            (question, pair::answer_at(&texts, place))
        })
    }
}

/// The couples that come of a file and its mask; in files of at most so many bytes each one is changed.
pub fn of(random: &mut Random, file: &[u8], mask: &[u8], every_byte: usize) -> Vec<Couple> {
    let mut maker = Maker::new(random, file, mask);
    maker.pair();
    for (original, second) in [(mask, mask), (mask, file), (file, file)] {
        maker.add(original.to_vec(), second.to_vec());
    }
    maker.changed(every_byte);
    maker.edited();
    maker.cut();
    maker.longer();
    maker.others();
    if maker.random.one_in(AT_THE_LIMIT) {
        maker.too_long();
    }
    maker.couples
}

struct Maker<'a> {
    random: &'a mut Random,
    file: &'a [u8],
    mask: &'a [u8],
    fields: Vec<Field>,
    /// Where the texts of the file begin.
    texts: Vec<usize>,
    couples: Vec<Couple>,
}

impl<'a> Maker<'a> {
    fn new(random: &'a mut Random, file: &'a [u8], mask: &'a [u8]) -> Self {
        let fields = field::parse(file);
        let texts = pair::texts_of(&fields);
        Self {
            random,
            file,
            mask,
            fields,
            texts: texts.into_iter().map(|(place, _)| place).collect(),
            couples: Vec::new(),
        }
    }

    /// The file and its mask, at as many places as there are, or many.
    fn pair(&mut self) {
        let length = self.file.len();
        let mut places: Vec<u32> = match length <= EVERY_PLACE {
            true => (0..length as u32 + HEADER as u32).collect(),
            false => (0..MANY).flat_map(|_| self.near()).collect(),
        };
        places.push(self.text() as u32 + (1 << 16));
        places.extend([0; 3].map(|_| self.far()));
        let (original, second) = (self.file.to_vec(), self.mask.to_vec());
        self.couples.push(Couple {
            original,
            second,
            places,
        });
    }

    /// A couple at a few places: those that are no pair are refused alike at all.
    fn add(&mut self, original: Vec<u8>, second: Vec<u8>) {
        let mut places = self.near().to_vec();
        if self.random.one_in(4) {
            places.push(self.far());
        }
        self.couples.push(Couple {
            original,
            second,
            places,
        });
    }

    /// A change made in either of the two files.
    fn add_each(&mut self, change: impl Fn(&mut Vec<u8>)) {
        let changed = |file: &[u8]| {
            let mut file = file.to_vec();
            change(&mut file);
            file
        };
        let (file, mask) = (self.file, self.mask);
        self.add(file.to_vec(), changed(mask));
        self.add(changed(file), mask.to_vec());
    }

    /// Where a text begins, 0 if there is none.
    fn text(&mut self) -> usize {
        match self.texts.is_empty() {
            true => 0,
            false => self.random.pick(&self.texts),
        }
    }

    /// A text's place, and one that is mostly not.
    fn near(&mut self) -> [u32; 2] {
        let any = self.random.below(self.file.len() + HEADER);
        [self.text(), any].map(|place| place as u32)
    }

    /// A place behind the longest file; many are a text's if only their low bytes count.
    fn far(&mut self) -> u32 {
        let text = self.text() as u32;
        match self.random.below(4) {
            0 => u32::MAX - self.random.below(3) as u32,
            1 => text + (self.random.between(1, 3) << 16) as u32,
            2 => text | self.random.pick(&[1 << 24, 1 << 31]),
            _ => u32::MAX - self.random.below(1 << 31) as u32,
        }
    }

    /// One byte changed; then several, so that the first of them counts.
    fn changed(&mut self, every_byte: usize) {
        let length = self.file.len();
        let all: Vec<usize> = match length <= every_byte {
            true => (0..length).collect(),
            false => [0; SOME_BYTES].map(|_| self.random.below(length)).into(),
        };
        for at in all {
            let any = self.random.byte();
            for byte in [b'a', b'x', b'\n', any] {
                self.add_each(|file| file[at] = byte);
            }
            self.add_each(|file| file[at] ^= 1);
        }
        for _ in 0..SOME_BYTES {
            let (file, mask) = (self.spoiled(self.file), self.spoiled(self.mask));
            let twice = self.spoiled(&mask);
            self.add(file, mask);
            self.add(self.file.to_vec(), twice);
        }
    }

    /// With a byte changed, if it has one.
    fn spoiled(&mut self, file: &[u8]) -> Vec<u8> {
        let mut file = file.to_vec();
        if !file.is_empty() {
            let at = self.random.below(file.len());
            file[at] = self.random.pick(&[b'a', b'x', b'\n', 0, 3, 4, 17, 0xff]);
        }
        file
    }

    /// A field dropped, repeated, or changing places with the one before it: mostly an accepted file, but another.
    fn edited(&mut self) {
        let count = field::count(&self.fields);
        for edit in 0..3 {
            let mut fields = self.fields.clone();
            let number = self.random.below(count.max(1));
            let Some((list, index)) = field::holder(&mut fields, number) else {
                return; // there is no field
            };
            match edit {
                0 => drop(list.remove(index)),
                1 => list.insert(index, list[index].clone()),
                _ => list.swap(index, index.saturating_sub(1)),
            }
            let (file, mask) = (self.file.to_vec(), self.mask.to_vec());
            self.add(file, field::encode(&pair::masked(&fields)));
            self.add(field::encode(&fields), mask);
        }
    }

    /// Cut behind a field of the file's own, and anywhere.
    fn cut(&mut self) {
        let behind = self.random.below(self.fields.len() + 1);
        let behind = field::length(&self.fields[..behind]);
        let anywhere = self.random.below(self.file.len() + 1);
        for length in [0, behind, anywhere, self.file.len().saturating_sub(1)] {
            self.add_each(|file| file.truncate(length));
        }
    }

    /// With more behind one of the two, or both: the same, or not.
    fn longer(&mut self) {
        for more in MORE {
            self.add_each(|file| file.extend(more));
            for other in [more, self.random.pick(&MORE)] {
                self.add([self.file, more].concat(), [self.mask, other].concat());
            }
        }
    }

    /// Beside a file that has nothing to do with it.
    fn others(&mut self) {
        let other = damage::small_file(self.random);
        self.add(self.file.to_vec(), other.clone());
        self.add(other, self.mask.to_vec());
    }

    /// Just as long as is accepted, or longer: one of the two, or both.
    fn too_long(&mut self) {
        let more = to_the_limit(self.random, self.file.len());
        self.add_each(|file| file.extend(&more));
        let [file, mask] = [self.file, self.mask].map(|file| [file, &more].concat());
        self.add(file, mask);
    }
}

/// What to put behind a file of this length to make it just as long as is accepted, or longer.
pub fn to_the_limit(random: &mut Random, length: usize) -> Vec<u8> {
    let longer = LONGEST_FILE + random.pick(&[0, 1, 2, 5_000]);
    let missing = longer.saturating_sub(length + 2 * HEADER);
    field::encode(&[field::text(vec![b'x'; missing])])
}
