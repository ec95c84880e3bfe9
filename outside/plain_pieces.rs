//! Part of plain.rs: a grid whose cells come in pieces, by document 02's Req 02, 06 and 07 and by what flo.h says of the state's bytes.
//!
//! Nothing clever: the cells that have come are kept as they came, and when the last is there they are received as a whole grid. A state
//! from elsewhere is good exactly when some cells leave it; its own bytes tell which ones these would have to be.

use super::{read_fields, receive, Answer, Profile, Received, CELLS, CELLS_MISSING, CELL_LENGTH, DONE, NO_SUCH_STATE, TOO_MANY_CELLS};

/// Bytes of a state.
pub const STATE: usize = 2 + 7 * CELLS;

/// The cells that have come, and the state that they leave.
#[derive(Clone)]
pub struct Came {
    firsts: Vec<f32>,
    seconds: Vec<f32>,
    state: Vec<u8>,
}

/// A part that decides to each of the numbers that a decision can have in the profile's mode.
fn parts(profile: &Profile) -> Vec<f32> {
    let level = profile.level;
    if profile.part_bits() == 1 { vec![level, -level, 0.0] } else { vec![3.0 * level, -3.0 * level, level, -level, 0.0] }
}

pub fn decision(profile: &Profile, part: f32) -> u8 {
    if profile.part_bits() == 1 { qpsk_decision(part, profile.floor) } else { qam_decision(part, profile.floor, profile.around_line()) }
}

fn qpsk_decision(part: f32, floor: f32) -> u8 {
    if part > floor {
        0
    } else if part < -floor {
        1
    } else {
        2
    }
}

fn qam_decision(part: f32, floor: f32, (low, high): (f32, f32)) -> u8 {
    if part > high {
        0
    } else if part < -high {
        1
    } else if part > floor && part < low {
        2
    } else if part < -floor && part > -low {
        3
    } else {
        4
    }
}

impl Came {
    pub fn nothing() -> Came {
        Came { firsts: Vec::new(), seconds: Vec::new(), state: vec![0; STATE] }
    }

    pub fn cells(&self) -> usize {
        self.firsts.len()
    }

    pub fn state(&self) -> &[u8] {
        &self.state
    }

    /// 7, 16, or 0, and then the piece is behind what had come.
    pub fn feed(&mut self, profile: &Profile, firsts: &[f32], seconds: &[f32]) -> u32 {
        if firsts.len() != seconds.len() {
            return CELL_LENGTH;
        }
        if self.cells() + firsts.len() > CELLS * profile.symbols() {
            return TOO_MANY_CELLS;
        }
        let base = parts(profile).len() as u8;
        for (&first, &second) in firsts.iter().zip(seconds) {
            self.state[2 + self.firsts.len()] = decision(profile, first) + base * decision(profile, second);
            self.firsts.push(first);
            self.seconds.push(second);
        }
        self.state[..2].copy_from_slice(&(self.firsts.len() as u16).to_be_bytes());
        DONE
    }

    /// 6, 17, or what the whole grid gives.
    pub fn ask(&self, profile: &Profile, marks: u16, data: &mut [u8]) -> Received {
        if data.len() == profile.data_length() && self.cells() < CELLS * profile.symbols() {
            return Answer::from(CELLS_MISSING).into();
        }
        receive(profile, marks, &self.firsts, &self.seconds, data)
    }

    /// Cells that leave this state when they are fed with this profile, if there are any. The state's bytes say how many they are and what each
    /// part decides to; if such cells don't leave this state, no others do.
    pub fn told_by(profile: &Profile, state: &[u8]) -> Option<Came> {
        let [high, low, cells @ ..] = state else { return None };
        let cells = cells.get(..u16::from_be_bytes([*high, *low]) as usize)?;
        let parts = parts(profile);
        let part = |decision: usize| parts[decision % parts.len()];
        let firsts: Vec<f32> = cells.iter().map(|&byte| part(byte as usize)).collect();
        let seconds: Vec<f32> = cells.iter().map(|&byte| part(byte as usize / parts.len())).collect();
        let mut came = Came::nothing();
        (came.feed(profile, &firsts, &seconds) == DONE && came.state == state).then_some(came)
    }
}

// ---- the two calls on a profile's bytes and any state, as the C library takes them

pub fn feed_bytes(profile: &[u8], state: &mut [u8], firsts: &[f32], seconds: &[f32]) -> Answer {
    let profile = match read_fields(profile) {
        Ok(profile) => profile,
        Err(answer) => return answer,
    };
    let Some(mut came) = Came::told_by(&profile, state) else { return NO_SUCH_STATE.into() };
    let number = came.feed(&profile, firsts, seconds);
    state.copy_from_slice(came.state());
    number.into()
}

pub fn ask_bytes(profile: &[u8], marks: u16, state: &[u8], data: &mut [u8]) -> Received {
    let profile = match read_fields(profile) {
        Ok(profile) => profile,
        Err(answer) => return answer.into(),
    };
    match Came::told_by(&profile, state) {
        Some(came) => came.ask(&profile, marks, data),
        None => Answer::from(NO_SUCH_STATE).into(),
    }
}
