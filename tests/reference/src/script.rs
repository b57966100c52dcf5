//! Document 01, "Scripts, planner, checker": a script's head and its frames.

use crate::packet;

/// The mark and the version 1, low byte first.
pub const HEAD: [u8; 5] = *b"BSX\x01\x00";

/// The frames after the head, if the bytes are a script: demand 3's list of messages.
pub fn frames(script: &[u8]) -> Option<Vec<&[u8]>> {
    let mut rest = script.strip_prefix(&HEAD)?;
    let mut frames = Vec::new();
    while !rest.is_empty() {
        let (frame, after) = rest.split_at(packet::frame(rest)?);
        frames.push(frame);
        rest = after;
    }
    Some(frames)
}

#[cfg(test)]
mod tests {
    use super::*;

    #[test]
    fn framing_uses_up_the_script() {
        let mut script = HEAD.to_vec();
        assert_eq!(frames(&script), Some(vec![]));
        script.extend(packet::erase());
        script.extend([1, 0, 0, 9, 9]);
        let expected = vec![&script[5..11], &script[11..16]];
        assert_eq!(frames(&script), Some(expected));
        assert_eq!(frames(&script[..15]), None);
        assert_eq!(frames(b"BSX\x00\x01"), None);
        assert_eq!(frames(b"BSX\x01"), None);
    }
}
