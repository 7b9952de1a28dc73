//! The syntax tree. Every node has its place in the text.

use super::source::Span;

#[derive(Clone, PartialEq, Eq, Debug)]
pub struct Name {
    pub text: String,
    pub span: Span,
}

#[derive(Clone, Debug)]
pub struct TypeExpr {
    pub span: Span,
    pub kind: TypeKind,
}

#[derive(Clone, Debug)]
pub enum TypeKind {
    Unit,
    Name(String),
    Product(Box<TypeExpr>, Box<TypeExpr>),
    Sum(Box<TypeExpr>, Box<TypeExpr>),
    Rec(Name, Box<TypeExpr>),
}

/// One alternative of a variant, with its parts.
#[derive(Clone, Debug)]
pub struct Alternative {
    pub name: Name,
    pub parts: Vec<TypeExpr>,
}

#[derive(Clone, Debug)]
pub enum TypeBody {
    Alias(TypeExpr),
    Variant(Vec<Alternative>),
    /// `type A = B`: another name for B if that is a type, else a variant of one alternative.
    Either(Name, TypeExpr),
}

#[derive(Clone, Debug)]
pub struct TypeDeclaration {
    pub name: Name,
    pub body: TypeBody,
}

#[derive(Clone, Debug)]
pub struct Parameter {
    pub name: Name,
    pub ty: TypeExpr,
}

#[derive(Clone, Debug)]
pub struct FunctionDeclaration {
    pub name: Name,
    pub parameters: Vec<Parameter>,
    pub result: TypeExpr,
    pub body: Expr,
}

#[derive(Clone, Copy, PartialEq, Eq, Debug)]
pub enum Side {
    Left,
    Right,
}

impl Side {
    pub fn word(self) -> &'static str {
        match self {
            Side::Left => "inl",
            Side::Right => "inr",
        }
    }
}

#[derive(Clone, Debug)]
pub struct Expr {
    pub span: Span,
    pub kind: ExprKind,
}

#[derive(Clone, Debug)]
pub enum ExprKind {
    Variable(String),
    Unit,
    Number(usize),
    /// Two or more parts.
    Tuple(Vec<Expr>),
    Construct(Name, Vec<Expr>),
    Call(Name, Vec<Expr>),
    Inject(Side, Option<TypeExpr>, Box<Expr>),
    Roll(Option<TypeExpr>, Box<Expr>),
    Unroll(Option<TypeExpr>, Box<Expr>),
    Let(Pattern, Box<Expr>, Box<Expr>),
    Case(Box<Expr>, Vec<Arm>),
    /// `(e : type)`
    Typed(Box<Expr>, TypeExpr),
}

#[derive(Clone, Debug)]
pub struct Arm {
    pub pattern: Pattern,
    pub body: Expr,
}

#[derive(Clone, Debug)]
pub struct Pattern {
    pub span: Span,
    pub kind: PatternKind,
}

#[derive(Clone, Debug)]
pub enum PatternKind {
    Any,
    Variable(String),
    Unit,
    Number(usize),
    Tuple(Vec<Pattern>),
    Construct(Name, Vec<Pattern>),
    Inject(Side, Box<Pattern>),
    Roll(Box<Pattern>),
}

#[derive(Clone, Debug, Default)]
pub struct Text {
    pub types: Vec<TypeDeclaration>,
    pub functions: Vec<FunctionDeclaration>,
}
