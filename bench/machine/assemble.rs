//! Procedure segments: the code of functions, instruction by instruction.
pub const SUM: u8 = 0x68;
pub const DIFFERENCE: u8 = 0x69;
pub const PRODUCT: u8 = 0x6A;
pub const QUOTIENT: u8 = 0x6B;
pub const LESS: u8 = 0x6E;
pub const EQUAL: u8 = 0x6F;
pub const EAT1: u8 = 0xA1;
pub const RESHAPE: u8 = 0xA6;
pub const CATENATE: u8 = 0xA8;
pub const INDEXGEN: u8 = 0xA9;
pub const RETURN: u8 = 0xB0;
pub const GO: u8 = 0xAD;
pub const GO_TRUE: u8 = 0xAE;
pub const GO_FALSE: u8 = 0xAF;

/// The byte of an operator where a table names it.
pub fn numbered(table: &[u8; 16], operator: u8) -> u8 {
    0x60 + table.iter().position(|&place| place == operator & 15).expect("each operator is in the table") as u8
}

/// The first place of a function's code.
pub const START: u16 = 8;

/// The code of one function. Locals are named by how far they lie below LBASE, globals by their address.
#[derive(Default)]
pub struct Code(Vec<u8>);

impl Code {
    fn bytes(mut self, bytes: &[u8]) -> Self {
        self.0.extend(bytes);
        self
    }

    /// An instruction of one byte.
    pub fn op(self, byte: u8) -> Self {
        self.bytes(&[byte])
    }

    pub fn constant(self, n: u16) -> Self {
        assert!(n < 4096);
        self.bytes(&(0x4000 | n).to_be_bytes())
    }

    pub fn constant_scalar(self, w: u32) -> Self {
        self.op(0xAA).bytes(&w.to_be_bytes())
    }

    pub fn local(self, below: u8) -> Self {
        self.op(64 - below)
    }

    pub fn global(self, at: u16) -> Self {
        assert!(at < 4096);
        self.bytes(&(0xD000 | at).to_be_bytes())
    }

    /// ASSIGN_NORESULT.
    pub fn to_local(self, below: u8) -> Self {
        self.op(0x91).local(below)
    }

    pub fn to_global(self, at: u16) -> Self {
        self.op(0x91).global(at)
    }

    /// ASSIGN_INDEXED with one subscript.
    pub fn to_element(self, at: u16) -> Self {
        self.op(0x81).global(at)
    }

    pub fn call(self, arguments: u16, function: u16) -> Self {
        self.op(0xB1).bytes(&(arguments << 12 | function).to_be_bytes())
    }

    pub fn jump(self, kind: u8, to: u16) -> Self {
        self.op(kind).bytes(&to.to_be_bytes())
    }

    /// A jump to the place where `skipped` has ended.
    pub fn jump_over(self, kind: u8, skipped: Code) -> Self {
        let to = self.here() + 3 + skipped.0.len() as u16;
        self.jump(kind, to).bytes(&skipped.0)
    }

    pub fn here(&self) -> u16 {
        START + self.0.len() as u16
    }
}

pub struct Function {
    pub nargs: u8,
    pub nlocals: u16,
    pub result: bool,
    pub code: Code,
}

/// A function without arguments and result.
pub fn simple(nlocals: u16, code: Code) -> Function {
    Function { nargs: 0, nlocals, result: false, code }
}

/// A procedure segment of functions without lines.
pub fn segment(functions: &[Function]) -> Vec<u8> {
    let n = functions.len() as u16 + 1;
    let mut directory = (n as u32).to_be_bytes().to_vec();
    let mut blocks = Vec::new();
    for f in functions {
        let words = f.code.0.len().div_ceil(4) as u16;
        directory.extend((n + (blocks.len() / 4) as u16).to_be_bytes());
        directory.extend((words + 2).to_be_bytes());
        blocks.extend([(f.result as u8) << 5, f.nargs, 0, 0]);
        blocks.extend(f.nlocals.to_be_bytes());
        blocks.extend(words.to_be_bytes());
        blocks.extend(&f.code.0);
        blocks.resize(blocks.len().next_multiple_of(4), 0);
    }
    directory.extend(blocks);
    directory
}
