//! The decoder as one writes it in Rust. A bench need not look at every field.
#![allow(dead_code)]

#[derive(Clone, Copy)]
pub enum Address {
    Local(u32),
    Global(u32),
}

#[derive(Clone, Copy)]
pub enum Instruction {
    Load(Address),
    ShortConstant { negative: bool, magnitude: u32 },
    Scalar(u8),
    Memory(u8, Address),
    Stack(u8),
    Array(u8),
    Control(u8),
    Jump(u8, u32),
    ConstantScalar(u32),
    ConstantVector { count: u8, first: u32 },
    Call { arguments: u16, alternate: bool, function: u16 },
    Index(u8),
}

pub enum Decoded {
    Instruction(Instruction, u32),
    Trap(u8, u8),
}

const OUTSIDE: Decoded = Decoded::Trap(3, 1);

type Trap = (u8, u8);

/// Two bytes of the code, if it has them.
#[inline]
pub fn half(code: &[u8], at: usize) -> Option<u32> {
    Some((*code.get(at)? as u32) << 8 | *code.get(at + 1)? as u32)
}

/// An address and the place after it, or a trap.
#[inline(always)]
pub fn address(code: &[u8], at: usize) -> Result<(Address, usize), Trap> {
    let b = *code.get(at).ok_or((3, 1))?;
    match b {
        0x00..=0x3F => Ok((Address::Local(64 - b as u32), at + 1)),
        0xC0..=0xDF => {
            let v = half(code, at).ok_or((3, 1))? & 0xFFF;
            let a = if b < 0xD0 { Address::Local(4096 - v) } else { Address::Global(v) };
            Ok((a, at + 2))
        }
        _ => Err((3, 7)),
    }
}

pub fn decode(code: &[u8], at: usize) -> Decoded {
    use Decoded::Instruction as Done;
    if at < 8 {
        return OUTSIDE;
    }
    let Some(&b) = code.get(at) else { return OUTSIDE };
    let next = at as u32 + 1;
    match b {
        0x00..=0x3F => Done(Instruction::Load(Address::Local(64 - b as u32)), next),
        0x40..=0x5F => match half(code, at) {
            None => OUTSIDE,
            Some(v) => Done(Instruction::ShortConstant { negative: v & 0x1000 != 0, magnitude: v & 0xFFF }, next + 1),
        },
        0x60..=0x6F => Done(Instruction::Scalar(b & 15), next),
        0x70..=0x7F => Decoded::Trap(3, 9),
        0x80 | 0x94..=0x9F => Decoded::Trap(3, 8),
        0x81..=0x93 => match address(code, at + 1) {
            Ok((a, end)) => Done(Instruction::Memory(b & 31, a), end as u32),
            Err((class, number)) => Decoded::Trap(class, number),
        },
        0xA0..=0xA4 => Done(Instruction::Stack(b & 31), next),
        0xA5..=0xA9 => Done(Instruction::Array(b & 31), next),
        0xAA => match (half(code, at + 1), half(code, at + 3)) {
            (Some(h), Some(l)) => Done(Instruction::ConstantScalar(h << 16 | l), next + 4),
            _ => OUTSIDE,
        },
        0xAB => match code.get(at + 1) {
            None => OUTSIDE,
            Some(&count) => {
                let first = (at + 5) & !3;
                let end = first + 4 * count as usize;
                if code.len() < end {
                    return OUTSIDE;
                }
                Done(Instruction::ConstantVector { count, first: first as u32 }, end as u32)
            }
        },
        0xAD..=0xAF => match half(code, at + 1) {
            None => OUTSIDE,
            Some(to) => Done(Instruction::Jump(b & 31, to), next + 2),
        },
        0xB1 => match half(code, at + 1) {
            None => OUTSIDE,
            Some(v) => Done(
                Instruction::Call { arguments: (v >> 12) as u16, alternate: v & 0x800 != 0, function: (v & 0x7FF) as u16 },
                next + 2,
            ),
        },
        0xAC | 0xB0 | 0xB2..=0xB4 => Done(Instruction::Control(b & 31), next),
        0xB5..=0xBF => Decoded::Trap(3, 11),
        0xC0..=0xDF => match address(code, at) {
            Ok((a, end)) => Done(Instruction::Load(a), end as u32),
            Err((class, number)) => Decoded::Trap(class, number),
        },
        0xE0..=0xEF => Done(Instruction::Index(b & 15), next),
        0xF0..=0xFF => Decoded::Trap(3, 11),
    }
}
