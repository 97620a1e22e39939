//! The steps of a script: by name, as schedules are written down with them, and as the bytes that stand in a file.
//! Nothing is judged here: a step may name a cell that is not there.

/// A step of a script: its code, and its value where it is a write (else 0).
#[derive(Clone, Copy, Debug, PartialEq, Eq)]
pub struct Step {
    pub code: u8,
    pub value: u32,
}

pub const BEGIN: Step = Step { code: 0, value: 0 };
pub const TRY: Step = Step { code: 1, value: 0 };
pub const GIVE_UP: Step = Step { code: 2, value: 0 };

/// A read of a cell.
pub fn read(cell: u8) -> Step {
    Step { code: 32 + cell, value: 0 }
}

/// A write of a value into a cell.
pub fn write(cell: u8, value: u32) -> Step {
    Step { code: 64 + cell, value }
}

/// Whether a code is that of a write, which its value follows in four bytes.
pub fn is_write(code: u8) -> bool {
    (64..=95).contains(&code)
}

/// The bytes of a script.
pub fn bytes(script: &[Step]) -> Vec<u8> {
    let mut bytes = Vec::new();
    for step in script {
        bytes.push(step.code);
        if is_write(step.code) {
            bytes.extend(step.value.to_be_bytes());
        }
    }
    bytes
}
