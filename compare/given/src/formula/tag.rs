//! The operators of document 01's node table, under the names that the given files use.

#[derive(Clone, Copy, Debug, PartialEq, Eq, Hash)]
pub enum LiteralPredOp {
    BTrue,
    BFalse,
}

#[derive(Clone, Copy, Debug, PartialEq, Eq, Hash)]
pub enum AssocPredOp {
    LAnd,
    LOr,
}

#[derive(Clone, Copy, Debug, PartialEq, Eq, Hash)]
pub enum BinaryPredOp {
    LImp,
    LEqv,
}

#[derive(Clone, Copy, Debug, PartialEq, Eq, Hash)]
pub enum QuantPredOp {
    ForAll,
    Exists,
}

#[derive(Clone, Copy, Debug, PartialEq, Eq, Hash)]
pub enum RelationalOp {
    Equal,
    Lt,
    Le,
    Gt,
    Ge,
    In,
    Subset,
    SubsetEq,
}

#[derive(Clone, Copy, Debug, PartialEq, Eq, Hash)]
pub enum AtomicOp {
    EmptySet,
    Natural,
    Natural1,
    True,
    False,
}

#[derive(Clone, Copy, Debug, PartialEq, Eq, Hash)]
pub enum AssocExprOp {
    Plus,
    Mul,
    BUnion,
    BInter,
}

#[derive(Clone, Copy, Debug, PartialEq, Eq, Hash)]
pub enum BinaryExprOp {
    Minus,
    SetMinus,
    Mapsto,
}

#[derive(Clone, Copy, Debug, PartialEq, Eq, Hash)]
pub enum UnaryExprOp {
    UnMinus,
}

#[derive(Clone, Copy, Debug, PartialEq, Eq, Hash)]
pub enum QuantExprOp {
    CSet,
}

/// How a comprehension was written; document 01 has one way.
#[derive(Clone, Copy, Debug, PartialEq, Eq, Hash)]
pub enum QuantExprForm {
    Explicit,
}
