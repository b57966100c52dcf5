//! What T-07 claims, over some cuts and by the card's own calls: a script that the checker passes
//! is cut some times and then sent afresh. Its packets succeed, region and mode end as in an uncut
//! run, and the firmware is never started over another checksum.

use crate::compare::Difference;
use crate::implementation::Implementation;
use crate::inputs::scripts::CheckInput;
use crate::random::Random;
use reference::script::frames;
use reference::{checksum, work, Card, Mode, SensorRecord, START};

/// What is done between a cut and the script sent afresh.
#[derive(Clone, Copy, Debug)]
pub struct Steps {
    pub restart: bool,
    /// 0x32 to a card that came up in application.
    pub enter: bool,
}

/// All of it, as the paper has it.
pub const STEPS: Steps = Steps {
    restart: true,
    enter: true,
};

/// Tries some cuts of a script that passes, over one region.
pub fn holds(
    side: &Implementation,
    input: &CheckInput,
    random: &mut Random,
    steps: Steps,
) -> Result<(), Difference> {
    let mut picture = vec![0; input.size];
    (side.read)(&input.text, input.size, &mut picture)
        .map_err(|refused| format!("T-07: text {refused:?}; input: {input}"))?;
    let messages = frames(&input.script).ok_or(format!("T-07: no script; input: {input}"))?;
    let mut sending = Sending {
        side,
        size: input.size,
        password: &input.password,
        card: Card {
            mode: Mode::Locked,
            expected: input.expected,
            version: [random.byte(), 2, 3],
            record: SensorRecord::default(),
        },
        region: held_before(random, &picture),
    };
    let mut tried = Vec::new();
    for _ in 0..random.between(1, 3) {
        let whole = random.between(0, messages.len());
        tried.push(whole);
        sending
            .attempt(&messages, whole, random, steps)
            .map_err(|what| {
                format!("T-07: {what}; cuts behind packets {tried:?}; input: {input}")
            })?;
    }
    sending
        .afresh(&messages, &picture)
        .map_err(|what| format!("T-07: {what}; cuts behind packets {tried:?}; input: {input}"))
}

/// What the flash held before: anything, or the picture already, so that a card may come up in
/// application early.
fn held_before(random: &mut Random, picture: &[u8]) -> Vec<u8> {
    match random.below(4) {
        0 => picture.to_vec(),
        1 => vec![0; picture.len()],
        2 => vec![0xFF; picture.len()],
        _ => random.bytes(picture.len()),
    }
}

/// A card that gets a script, with its flash.
struct Sending<'a> {
    side: &'a Implementation,
    size: usize,
    password: &'a [u8],
    card: Card,
    region: Vec<u8>,
}

impl Sending<'_> {
    /// So many packets whole, the next cut at a place of its work, or behind the last none; then
    /// the card has to be as a freshly entered loader.
    fn attempt(
        &mut self,
        messages: &[&[u8]],
        whole: usize,
        random: &mut Random,
        steps: Steps,
    ) -> Result<(), String> {
        let fresh = self.card;
        for message in &messages[..whole] {
            self.succeed(message)?;
        }
        self.cut(messages.get(whole).unwrap_or(&&[][..]), random)?;
        if steps.restart {
            self.restart()?;
        }
        if steps.enter && self.card.mode == Mode::Application {
            self.call(&[0x32])?;
        }
        if self.card == fresh {
            return Ok(());
        }
        Err(format!("behind a cut the card is {:?}", self.card.mode))
    }

    /// The script sent afresh.
    fn afresh(&mut self, messages: &[&[u8]], picture: &[u8]) -> Result<(), String> {
        for (index, message) in messages.iter().enumerate() {
            if self.card.mode == Mode::Application {
                return Err(format!("started before packet {index}"));
            }
            self.succeed(message)?;
        }
        match self.card.mode {
            Mode::Application if self.region == picture => Ok(()),
            Mode::Application => Err("another region than the picture".into()),
            mode => Err(format!("the script sent afresh ends in {mode:?}")),
        }
    }

    fn cut(&mut self, message: &[u8], random: &mut Random) -> Result<(), String> {
        let whole = work(&self.card, &self.region, self.password, message);
        let inside = random.between(0, whole);
        let place = random.pick(&[0, whole, inside, inside]);
        let (size, password) = (self.size, self.password);
        let cut = self.side.cut;
        cut(
            &mut self.card,
            size,
            &mut self.region,
            password,
            message,
            place,
        )
        .map_err(|refused| format!("a cut at {place} gets {refused:?}"))
    }

    fn restart(&mut self) -> Result<(), String> {
        (self.side.restart)(&mut self.card, self.size, &self.region)
            .map_err(|refused| format!("a restart gets {refused:?}"))?;
        self.never_over_another()
    }

    /// A packet that has to succeed.
    fn succeed(&mut self, message: &[u8]) -> Result<(), String> {
        match self.call(message)? {
            true => Ok(()),
            false => Err("a packet does not succeed".into()),
        }
    }

    /// A message that must not be refused; whether it succeeds.
    fn call(&mut self, message: &[u8]) -> Result<bool, String> {
        let mut reply = [0; 64];
        let (size, password) = (self.size, self.password);
        let call = self.side.call;
        let replied = call(
            &mut self.card,
            size,
            &mut self.region,
            password,
            message,
            &mut reply,
        )
        .map_err(|refused| format!("a message gets {refused:?}"))?;
        self.never_over_another()?;
        Ok(replied.success)
    }

    /// In application the checksum is the expected one.
    fn never_over_another(&self) -> Result<(), String> {
        if self.card.mode != Mode::Application {
            return Ok(());
        }
        match checksum(START, &self.region) {
            sum if sum == self.card.expected => Ok(()),
            sum => Err(format!("in application over the checksum {sum:04X}")),
        }
    }
}
