//! A request: two bytes with the text's length, low byte first, then the text and bytes that mean nothing.

use crate::random::Random;

/// The longest text of a request.
pub const MOST_INPUT: usize = 4_098;
const LENGTH: usize = 2 + MOST_INPUT;

pub fn fits(text: &[u8]) -> bool {
    text.len() <= MOST_INPUT
}

pub fn of(text: &[u8], random: &mut Random) -> Vec<u8> {
    let length = u16::try_from(text.len()).expect("the text fits");
    let mut frame = [&length.to_le_bytes(), text].concat();
    let behind = behind(random);
    frame.extend(behind.iter().cycle().take(LENGTH - frame.len()));
    frame
}

/// What comes behind the text, again and again; most of it looks like more of the text.
fn behind(random: &mut Random) -> Vec<u8> {
    let digit = random.below(10);
    match random.below(7) {
        0 => vec![random.pick(&[0, b' ', b'\n', 255])],
        1 => (0..LENGTH).map(|_| random.byte()).collect(),
        2 => format!("{digit}\n").into_bytes(),
        3 => format!("\ntask 0 1 1 {digit}").into_bytes(),
        4 => b"policy edf\ntask 0 2 4 4\ntask 1 1 2 4\n".to_vec(),
        5 => b"card small\n".to_vec(),
        _ => format!("task {digit} 1 64 64\n").into_bytes(),
    }
}

#[cfg(test)]
mod tests {
    use super::*;

    #[test]
    fn a_request_has_its_length_whatever_the_text() {
        let mut random = Random::new(11);
        for length in [0, 1, 255, 256, 4_095, 4_098] {
            let text = vec![b'x'; length];
            for _ in 0..50 {
                let frame = of(&text, &mut random);
                assert_eq!(frame.len(), 4_100);
                assert_eq!(usize::from(frame[0]) + 256 * usize::from(frame[1]), length);
                assert_eq!(frame[2..2 + length], text);
            }
        }
        assert!(fits(&[0; 4_098]));
        assert!(!fits(&[0; 4_099]));
    }
}
