//! Expressions as trees, walked for each row.
use crate::graph::Graph;
use crate::value::Value;
use std::borrow::Cow;

/// A refusal, by its number.
pub struct Fault(pub u8);

impl Fault {
    const TYPE: Fault = Fault(16);
    pub const OVERFLOW: Fault = Fault(17);
    const DIVISION: Fault = Fault(18);
}

#[derive(Clone, Copy)]
pub enum Arithmetic {
    Sum,
    Difference,
    Product,
    Quotient,
    Remainder,
}

pub enum Expression {
    Literal(Value),
    Column(usize),
    Parameter(usize),
    Property(Box<Expression>, u32),
    Arithmetic(Arithmetic, Box<Expression>, Box<Expression>),
    Equal(Box<Expression>, Box<Expression>),
    Differs(Box<Expression>, Box<Expression>),
    And(Box<Expression>, Box<Expression>),
    Size(Box<Expression>),
    Case(Vec<(Expression, Expression)>, Box<Expression>),
}

pub struct Scene<'a> {
    pub graph: &'a Graph,
    pub parameters: &'a [Value],
    pub row: &'a [Value],
}

fn compute(arithmetic: Arithmetic, a: i64, b: i64) -> Result<i64, Fault> {
    match arithmetic {
        Arithmetic::Sum => a.checked_add(b),
        Arithmetic::Difference => a.checked_sub(b),
        Arithmetic::Product => a.checked_mul(b),
        Arithmetic::Quotient | Arithmetic::Remainder if b == 0 => return Err(Fault::DIVISION),
        Arithmetic::Quotient => a.checked_div(b),
        Arithmetic::Remainder => Some(a.wrapping_rem(b)),
    }
    .ok_or(Fault::OVERFLOW)
}

/// Whether two values are equal, null where that isn't known.
fn equality(a: &Value, b: &Value) -> Value {
    match (a, b) {
        (Value::Null, _) | (_, Value::Null) => Value::Null,
        (Value::List(a), Value::List(b)) if a.len() == b.len() => a
            .iter()
            .zip(b)
            .map(|(a, b)| equality(a, b))
            .fold(Value::Bool(true), |so_far, next| conjunction(&so_far, &next).unwrap_or(Value::Null)),
        _ => Value::Bool(a == b),
    }
}

fn conjunction(a: &Value, b: &Value) -> Result<Value, Fault> {
    match (a, b) {
        (Value::Bool(a), Value::Bool(b)) => Ok(Value::Bool(*a && *b)),
        (Value::Null, Value::Bool(false)) | (Value::Bool(false), Value::Null) => Ok(Value::Bool(false)),
        (Value::Null | Value::Bool(_), Value::Null | Value::Bool(_)) => Ok(Value::Null),
        _ => Err(Fault::TYPE),
    }
}

impl Expression {
    pub fn value<'a>(&'a self, scene: &Scene<'a>) -> Result<Cow<'a, Value>, Fault> {
        let made = match self {
            Expression::Literal(value) => return Ok(Cow::Borrowed(value)),
            Expression::Column(at) => return Ok(Cow::Borrowed(&scene.row[*at])),
            Expression::Parameter(at) => return Ok(Cow::Borrowed(&scene.parameters[*at])),
            Expression::Property(of, key) => match *of.value(scene)? {
                Value::Node(id) => match scene.graph.node(id).property(*key) {
                    Some(value) => return Ok(Cow::Borrowed(value)),
                    None => Value::Null,
                },
                Value::Null => Value::Null,
                _ => return Err(Fault::TYPE),
            },
            Expression::Arithmetic(arithmetic, a, b) => match (&*a.value(scene)?, &*b.value(scene)?) {
                (Value::Int(a), Value::Int(b)) => Value::Int(compute(*arithmetic, *a, *b)?),
                (Value::Null, _) | (_, Value::Null) => Value::Null,
                _ => return Err(Fault::TYPE),
            },
            Expression::Equal(a, b) => equality(&*a.value(scene)?, &*b.value(scene)?),
            Expression::Differs(a, b) => match equality(&*a.value(scene)?, &*b.value(scene)?) {
                Value::Bool(it) => Value::Bool(!it),
                _ => Value::Null,
            },
            Expression::And(a, b) => conjunction(&*a.value(scene)?, &*b.value(scene)?)?,
            Expression::Size(of) => match &*of.value(scene)? {
                Value::List(items) => Value::Int(items.len() as i64),
                Value::Text(text) => Value::Int(text.chars().count() as i64),
                Value::Null => Value::Null,
                _ => return Err(Fault::TYPE),
            },
            Expression::Case(branches, otherwise) => {
                for (condition, then) in branches {
                    if *condition.value(scene)? == Value::Bool(true) {
                        return then.value(scene);
                    }
                }
                return otherwise.value(scene);
            }
        };
        Ok(Cow::Owned(made))
    }
}

pub fn int(value: i64) -> Expression {
    Expression::Literal(Value::Int(value))
}

pub fn column(at: usize) -> Expression {
    Expression::Column(at)
}

pub fn property(of: Expression, key: u32) -> Expression {
    Expression::Property(Box::new(of), key)
}

pub fn size(of: Expression) -> Expression {
    Expression::Size(Box::new(of))
}

pub fn equal(a: Expression, b: Expression) -> Expression {
    Expression::Equal(Box::new(a), Box::new(b))
}

pub fn differs(a: Expression, b: Expression) -> Expression {
    Expression::Differs(Box::new(a), Box::new(b))
}

pub fn and(a: Expression, b: Expression) -> Expression {
    Expression::And(Box::new(a), Box::new(b))
}

fn arithmetic(arithmetic: Arithmetic, a: Expression, b: Expression) -> Expression {
    Expression::Arithmetic(arithmetic, Box::new(a), Box::new(b))
}

pub fn sum(a: Expression, b: Expression) -> Expression {
    arithmetic(Arithmetic::Sum, a, b)
}

pub fn difference(a: Expression, b: Expression) -> Expression {
    arithmetic(Arithmetic::Difference, a, b)
}

pub fn product(a: Expression, b: Expression) -> Expression {
    arithmetic(Arithmetic::Product, a, b)
}

pub fn quotient(a: Expression, b: Expression) -> Expression {
    arithmetic(Arithmetic::Quotient, a, b)
}

pub fn remainder(a: Expression, b: Expression) -> Expression {
    arithmetic(Arithmetic::Remainder, a, b)
}
