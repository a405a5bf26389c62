//! A NUL put on purpose into a text or name of an accepted file, with what strict mode has to answer.

use super::Known;
use crate::check::Refusal;
use crate::damage::NOT_UTF8;
use crate::field::{self, Field};
use crate::generate::returns;
use crate::random::Random;
use crate::tags::*;

/// The only NUL of the file's texts, or one in a name; now and then with something that is no UTF-8 behind it, which then answers. None if the file
/// has neither texts nor names, or grows too long.
pub fn fault(random: &mut Random, fields: &[Field]) -> Option<Known> {
    let mut fields = fields.to_vec();
    returns::clear(&mut fields);
    let (number, place, tag) = picked(random, &fields)?;
    let broken = random.one_in(3);
    let (list, index) = field::holder(&mut fields, number)?;
    let Field::Leaf(_, value) = &mut list[index] else {
        return None;
    };
    value.insert(0, 0);
    if broken {
        value.extend(random.pick(&NOT_UTF8));
    }
    let right = match (broken, tag) {
        (true, _) => Err(Refusal { number: 7, place }),
        (false, DEFINITION | USE) => Ok(()),
        (false, _) => Err(Refusal { number: 14, place }),
    };
    let file = field::encode(&fields);
    (file.len() <= LONGEST_FILE).then_some(Known { file, right })
}

/// A text or name: its number among all fields, its place and its tag.
fn picked(random: &mut Random, fields: &[Field]) -> Option<(usize, usize, u8)> {
    let mut found = Vec::new();
    for (number, (place, _, field)) in field::places(fields).into_iter().enumerate() {
        if let Field::Leaf(tag @ (TEXT_BYTES | IF_BLOCK_LAYOUT | DEFINITION | USE), _) = field {
            found.push((number, place, *tag));
        }
    }
    (!found.is_empty()).then(|| random.pick(&found))
}
