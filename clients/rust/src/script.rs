//! The operations of a job on the cells of its lock.

use crate::json::Value;

/// An operation on the cells of a lock. Its value is what its last cell holds afterwards; a script replies the value of
/// its last operation, or 0.
#[derive(Clone, Copy, Debug, PartialEq, Eq)]
pub enum Op {
    /// Changes nothing.
    Get(u32),
    /// Puts the value into the cell.
    Set(u32, u64),
    /// Adds the value to the cell, modulo 2^64.
    Add(u32, u64),
    /// Puts the first cell's value into the second one.
    Copy(u32, u32),
    /// Swaps the values of two cells.
    Swap(u32, u32),
}

impl Op {
    pub(crate) fn value(self) -> Value {
        let (name, first, second) = match self {
            Op::Get(cell) => ("get", cell, None),
            Op::Set(cell, value) => ("set", cell, Some(value)),
            Op::Add(cell, value) => ("add", cell, Some(value)),
            Op::Copy(from, to) => ("copy", from, Some(u64::from(to))),
            Op::Swap(one, other) => ("swap", one, Some(u64::from(other))),
        };
        let numbers = [Some(u64::from(first)), second];
        Value::List([Value::from(name)].into_iter().chain(numbers.into_iter().flatten().map(Value::from)).collect())
    }

    /// The operation that a value stands for, if any.
    pub(crate) fn read(value: &Value) -> Option<Op> {
        let mut words = value.as_list()?.iter();
        let name = words.next()?.as_text()?;
        let numbers = words.map(Value::as_number).collect::<Option<Vec<u64>>>()?;
        let first = u32::try_from(*numbers.first()?).ok()?;
        let second = numbers.get(1).copied();
        let other = second.and_then(|it| u32::try_from(it).ok());
        match (name, numbers.len()) {
            ("get", 1) => Some(Op::Get(first)),
            ("set", 2) => Some(Op::Set(first, second?)),
            ("add", 2) => Some(Op::Add(first, second?)),
            ("copy", 2) => Some(Op::Copy(first, other?)),
            ("swap", 2) => Some(Op::Swap(first, other?)),
            _ => None,
        }
    }
}
