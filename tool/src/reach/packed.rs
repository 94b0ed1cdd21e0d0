//! States in few bytes.

use proved::STATE_WORDS;

/// About what a state takes besides its words.
pub const NODE_BYTES: usize = 100;

/// The words that are not 0, each with its place.
pub fn packed(state: &[u64]) -> Vec<u8> {
    let mut packed = Vec::new();
    for (place, word) in state.iter().enumerate().filter(|(_, word)| **word != 0) {
        packed.extend((place as u16).to_le_bytes());
        packed.extend(word.to_le_bytes());
    }
    packed
}

pub fn unpacked(packed: &[u8]) -> [u64; STATE_WORDS] {
    let mut state = [0; STATE_WORDS];
    for part in packed.chunks_exact(10) {
        let (place, word) = part.split_at(2);
        let place = usize::from(u16::from_le_bytes([place[0], place[1]]));
        state[place] = u64::from_le_bytes(word.try_into().expect("eight bytes"));
    }
    state
}

#[cfg(test)]
mod tests {
    use super::*;

    #[test]
    fn states_are_packed_and_unpacked() {
        let mut state = [0; STATE_WORDS];
        (state[0], state[1_024], state[STATE_WORDS - 1]) = (1, u64::MAX, 7);
        assert_eq!(unpacked(&packed(&state)), state);
    }
}
