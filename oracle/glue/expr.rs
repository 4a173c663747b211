//! The expression type that the three files name. The oracle builds no expression; the variants are here because the files
//! match on them.

#[derive(Debug, Clone, PartialEq, Eq)]
pub enum Expr {
    Zero,
    One,
    Top,
    End,
    Dup,
    Test(u32, bool),
    Assign(u32, bool),
    Union(Box<Expr>, Box<Expr>),
    Intersect(Box<Expr>, Box<Expr>),
    Xor(Box<Expr>, Box<Expr>),
    Difference(Box<Expr>, Box<Expr>),
    Sequence(Box<Expr>, Box<Expr>),
    Star(Box<Expr>),
    Complement(Box<Expr>),
    TestNegation(Box<Expr>),
    LtlNext(Box<Expr>),
    LtlUntil(Box<Expr>, Box<Expr>),
    IfThenElse(Box<Expr>, Box<Expr>, Box<Expr>),
    Var(String),
    Let(String, Box<Expr>, Box<Expr>),
    LetBitRange(String, u32, u32, Box<Expr>),
    VarAssign(String, Vec<bool>),
    VarTest(String, Vec<bool>),
    BitRangeAssign(u32, u32, Vec<bool>),
    BitRangeTest(u32, u32, Vec<bool>),
    BitRangeMatch(u32, u32, String),
    VarMatch(String, String),
}
