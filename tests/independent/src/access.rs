//! 02, P6: the register access that an accepted turn or release makes, and how it is shown.

use std::fmt;

use crate::grid::Registers;

#[derive(Clone, Copy, PartialEq, Eq, Debug)]
pub enum Operation {
    Read,
    Write,
}

#[derive(Clone, Copy, PartialEq, Eq, Debug)]
pub enum Register {
    X,
    Mark,
}

/// One access of one register. An X is shown as it is stored: p+1 for task p.
#[derive(Clone, Copy, PartialEq, Eq, Debug)]
pub struct Access {
    pub operation: Operation,
    pub register: Register,
    pub block: usize,
    /// The place among the block's marks; 0 for X and for the one-time mark.
    pub place: usize,
    /// What is read, or what is written.
    pub value: u32,
}

impl Access {
    /// Reads the X of a block.
    pub fn read_x(registers: &Registers, block: usize) -> Access {
        let value = registers.x[block];
        Access { operation: Operation::Read, register: Register::X, block, place: 0, value }
    }

    /// Writes the X of a block.
    pub fn write_x(registers: &mut Registers, block: usize, value: u32) -> Access {
        registers.x[block] = value;
        Access { operation: Operation::Write, register: Register::X, block, place: 0, value }
    }
}

/// The five fields of a listing's line.
impl fmt::Display for Access {
    fn fmt(&self, text: &mut fmt::Formatter) -> fmt::Result {
        let operation = match self.operation {
            Operation::Read => 'R',
            Operation::Write => 'W',
        };
        let register = match self.register {
            Register::X => 'X',
            Register::Mark => 'M',
        };
        let Access { block, place, value, .. } = self;
        write!(text, "{operation} {register} {block} {place} {value}")
    }
}
