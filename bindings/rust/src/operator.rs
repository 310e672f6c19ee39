//! The operators of GENSCALAR, and tables that name them.

/// An operator, by its place in the manual's table.
///
/// ```
/// use crms::Operator;
///
/// // A compiler that gives NOT and QUOTIENT each other's numbers, 5 and 11.
/// let mut operators = Operator::ALL;
/// operators.swap(5, 11);
/// assert_eq!(Operator::table(operators), [0, 1, 2, 3, 4, 11, 6, 7, 8, 9, 10, 5, 12, 13, 14, 15]);
/// ```
#[derive(Clone, Copy, Debug, PartialEq, Eq, Hash)]
pub enum Operator {
    /// One operand: the number itself.
    Identity = 0,
    /// One operand: the number with its other sign.
    Negative = 1,
    /// One operand: the greatest whole number that is not above it.
    Floor = 2,
    /// One operand: the least whole number that is not below it.
    Ceiling = 3,
    /// One operand: the number without its sign.
    Magnitude = 4,
    /// One operand: 1 for 0, and 0 for 1.
    Not = 5,
    /// One operand: whether it is a number.
    TestNumber = 6,
    /// One operand: a character's code, or the character of a code.
    Convert = 7,
    /// Two operands.
    Sum = 8,
    /// Two operands: the first less the second.
    Difference = 9,
    /// Two operands.
    Product = 10,
    /// Two operands: the first by the second.
    Quotient = 11,
    /// Two operands: whether both are 1.
    LogicalProduct = 12,
    /// Two operands: whether one or both are 1.
    LogicalSum = 13,
    /// Two operands: whether the first is below the second.
    Less = 14,
    /// Two operands: whether they are equal.
    Equal = 15,
}

impl Operator {
    /// All operators, in the order of the manual's table: suboperation i, whose first byte is 0x60 + i, is operator i.
    pub const ALL: [Operator; 16] = [
        Operator::Identity,
        Operator::Negative,
        Operator::Floor,
        Operator::Ceiling,
        Operator::Magnitude,
        Operator::Not,
        Operator::TestNumber,
        Operator::Convert,
        Operator::Sum,
        Operator::Difference,
        Operator::Product,
        Operator::Quotient,
        Operator::LogicalProduct,
        Operator::LogicalSum,
        Operator::Less,
        Operator::Equal,
    ];

    /// The table, for [`run_with`](crate::run_with) and [`replay_with`](crate::replay_with), by which suboperation i means
    /// operator i of these. It is taken if each operator stands there once.
    pub fn table(operators: [Operator; 16]) -> [u8; 16] {
        operators.map(|operator| operator as u8)
    }
}
