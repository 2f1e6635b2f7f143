//! Pairs of hellos that the original made, for which alike means the same profile and the same name.

use crate::make;
use crate::random::Random;

/// Profiles, and the longest name.
const PROFILES: u64 = 3;
const LONGEST: usize = 255;

/// Two hellos, each with a connection id and a tape of its own, and whether profile and name are the same.
pub(crate) fn pair(random: &mut Random) -> ([Vec<u8>; 2], bool) {
    let profile = random.below(PROFILES as usize) as u64;
    let length = 1 + random.below(LONGEST);
    let name = make::any_name(length, random);
    let other_profile = match random.below(4) {
        0 => (profile + 1) % PROFILES,
        1 => (profile + 2) % PROFILES,
        _ => profile,
    };
    let other_name = match random.below(2) {
        0 => near(&name, random),
        _ => name.clone(),
    };
    let one = make::hello_for(profile, &name, random);
    let other = make::hello_for(other_profile, &other_name, random);
    let same = profile == other_profile && name == other_name;
    ([one, other], same)
}

/// Another name: a byte changed, a letter in the other case, a byte longer or shorter, or all of it drawn again.
fn near(name: &[u8], random: &mut Random) -> Vec<u8> {
    let mut other = name.to_vec();
    let place = random.below(name.len());
    match random.below(5) {
        0 => other[place] = 33 + (other[place] - 33 + 1 + random.below(93) as u8) % 94,
        1 if name[place].is_ascii_alphabetic() => other[place] ^= 0x20,
        2 if name.len() < LONGEST => other.push(b'a'),
        3 if 1 < name.len() => other.truncate(name.len() - 1),
        _ => other = make::any_name(name.len(), random),
    }
    other
}
