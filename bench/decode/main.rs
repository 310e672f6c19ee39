//! Time for one decoded instruction: the proved decoder beside a plain Rust `match` decoder, on the same code.
#[path = "../plain/decode.rs"]
mod decode;
#[path = "../common/windows.rs"]
mod windows;

use decode::{decode, Address, Decoded, Instruction};
use std::hint::black_box;
use windows::{nanoseconds, Windows};

extern "C" {
    fn crms_walk(code: *const u8, length: usize) -> u64;
}

fn address_weight(a: Address) -> u64 {
    match a {
        Address::Local(below) => below as u64,
        Address::Global(at) => at as u64,
    }
}

fn control_weight(o: u8) -> u64 {
    match o {
        12 => 31,
        16 => 32,
        18 => 33,
        19 => 34,
        _ => 35,
    }
}

fn weight(i: Instruction) -> u64 {
    match i {
        Instruction::Load(a) => 1000 + address_weight(a),
        Instruction::ShortConstant { negative, magnitude } => {
            (if negative { 30000 } else { 20000 }) + magnitude as u64
        }
        Instruction::Scalar(o) => 1 + o as u64,
        Instruction::Memory(o, a) => 100 * o as u64 + address_weight(a),
        Instruction::Stack(o) => 21 + o as u64,
        Instruction::Array(o) => 21 + o as u64,
        Instruction::Control(o) => control_weight(o),
        Instruction::Jump(o, to) => 40000 + 1000 * (o as u64 - 13) + to as u64,
        Instruction::ConstantScalar(w) => w as u64,
        Instruction::ConstantVector { count, first } => count as u64 + first as u64,
        Instruction::Call { arguments, alternate, function } => {
            (if alternate { 70000 } else { 60000 }) + arguments as u64 + function as u64
        }
        Instruction::Index(rank) => 500 + rank as u64,
    }
}

fn walk(code: &[u8]) -> u64 {
    let mut at = 8;
    let mut sum: u64 = 0;
    let mut turns = code.len();
    while turns > 0 {
        match decode(code, at) {
            Decoded::Trap(_, _) => return sum,
            Decoded::Instruction(i, next) => {
                sum = sum.wrapping_add(weight(i));
                at = next as usize;
            }
        }
        turns -= 1;
    }
    sum
}

fn count(code: &[u8]) -> u64 {
    let mut at = 8;
    let mut n = 0;
    while let Decoded::Instruction(_, next) = decode(code, at) {
        n += 1;
        at = next as usize;
    }
    n
}

// Pseudo-random code made of whole instructions that `keep` lets through.
fn code(keep: fn(&Instruction) -> bool) -> Vec<u8> {
    let mut code = vec![0u8; 8];
    let mut state: u64 = 88172645463325252;
    while code.len() < 32000 {
        let start = code.len();
        for _ in 0..6 {
            state ^= state << 13;
            state ^= state >> 7;
            state ^= state << 17;
            code.push(state as u8);
        }
        match decode(&code, start) {
            Decoded::Instruction(i, next) if keep(&i) => code.truncate(next as usize),
            _ => code.truncate(start),
        }
    }
    code
}

fn one_byte(i: &Instruction) -> bool {
    use Instruction::*;
    matches!(i, Load(Address::Local(1..=64)) | Scalar(_) | Stack(_) | Array(_) | Control(_) | Index(_))
}

fn main() {
    for (name, code) in [("one byte", code(one_byte)), ("all forms", code(|_| true))] {
        let n = count(&code) as f64;
        let proved = || unsafe { crms_walk(black_box(code.as_ptr()), code.len()) };
        let plain = || walk(black_box(&code));
        assert_eq!(proved(), plain());
        let mut windows = Windows::new();
        for _ in 0..1_000 {
            windows.take([nanoseconds(|| _ = black_box(proved())) / n, nanoseconds(|| _ = black_box(plain())) / n]);
        }
        let [a, b] = windows.times();
        println!("{name}: proved {:.2} ns, plain Rust {:.2} ns an instruction, ratio {:.2}", a.best, b.best, a.best / b.best);
    }
}
