// SPDX-License-Identifier: Apache-2.0
use std::collections::BTreeMap;

use crate::Error;
use crate::raw::{self, OfInputs, Owner, done};

/// A number or a text.
#[derive(Clone, Debug, PartialEq, Eq, PartialOrd, Ord)]
pub enum Scalar {
    Int(i64),
    Text(String),
}

/// The type of a scalar.
#[derive(Clone, Copy, Debug, PartialEq, Eq)]
pub enum Type {
    Int,
    Text,
}

/// An input or an output. An output of one run can be an input of another, unless it is unset.
///
/// ```
/// use yuglemit::Value;
///
/// let _: [Value; 4] = [7.into(), "a text".into(), [(1, 7), (5, -3)].into(), [("the", 2)].into()];
/// ```
#[derive(Clone, Debug, PartialEq, Eq)]
pub enum Value {
    Unset,
    Int(i64),
    Text(String),
    Container(Container),
}

/// Members by subscript. A member of a report may be unset; one of an input may not.
#[derive(Clone, Debug, PartialEq, Eq)]
pub struct Container {
    /// The types of subscripts and of members.
    pub by: Type,
    pub of: Type,
    pub members: BTreeMap<Scalar, Option<Scalar>>,
}

impl Type {
    pub(crate) fn of(letter: u8) -> Type {
        if letter == b't' { Type::Text } else { Type::Int }
    }
}

/// A Rust type of scalars.
pub trait IntoScalar: Into<Scalar> {
    const TYPE: Type;
}

impl IntoScalar for i64 {
    const TYPE: Type = Type::Int;
}

impl IntoScalar for &str {
    const TYPE: Type = Type::Text;
}

impl IntoScalar for String {
    const TYPE: Type = Type::Text;
}

impl From<i64> for Scalar {
    fn from(number: i64) -> Scalar {
        Scalar::Int(number)
    }
}

impl From<&str> for Scalar {
    fn from(text: &str) -> Scalar {
        Scalar::Text(text.into())
    }
}

impl From<String> for Scalar {
    fn from(text: String) -> Scalar {
        Scalar::Text(text)
    }
}

impl From<Scalar> for Value {
    fn from(scalar: Scalar) -> Value {
        match scalar {
            Scalar::Int(number) => Value::Int(number),
            Scalar::Text(text) => Value::Text(text),
        }
    }
}

impl From<i64> for Value {
    fn from(number: i64) -> Value {
        Value::Int(number)
    }
}

impl From<&str> for Value {
    fn from(text: &str) -> Value {
        Value::Text(text.into())
    }
}

impl From<String> for Value {
    fn from(text: String) -> Value {
        Value::Text(text)
    }
}

impl<By: IntoScalar, Of: IntoScalar> FromIterator<(By, Of)> for Value {
    fn from_iter<Members: IntoIterator<Item = (By, Of)>>(members: Members) -> Value {
        let members = members.into_iter().map(|(by, of)| (by.into(), Some(of.into()))).collect();
        Value::Container(Container { by: By::TYPE, of: Of::TYPE, members })
    }
}

impl<By: IntoScalar, Of: IntoScalar, const N: usize> From<[(By, Of); N]> for Value {
    fn from(members: [(By, Of); N]) -> Value {
        members.into_iter().collect()
    }
}

impl<By: IntoScalar, Of: IntoScalar> From<BTreeMap<By, Of>> for Value {
    fn from(members: BTreeMap<By, Of>) -> Value {
        members.into_iter().collect()
    }
}

// Each pointer below is a slice's or an owner's own, and the owners of a call are different ones.

impl Value {
    pub(crate) fn append(&self, inputs: &Owner<OfInputs>) -> Result<(), Error> {
        match self {
            Value::Unset => Err(Error::NoInput),
            Value::Int(number) => done(unsafe { raw::yuglemit_input_int(inputs.at(), *number) }),
            Value::Text(text) => done(unsafe { raw::yuglemit_input_text(inputs.at(), text.as_ptr(), text.len()) }),
            Value::Container(container) => container.append(inputs),
        }
    }
}

/// Scalars of one type as the library takes them: integers, or texts one after the other, with the place at which each ends.
enum Column {
    Ints(Vec<i64>),
    Texts(Vec<u8>, Vec<u64>),
}

impl Column {
    fn of(scalars: &[&Scalar], kind: Type) -> Result<Column, Error> {
        match kind {
            Type::Int => scalars.iter().map(|scalar| if let Scalar::Int(number) = scalar { Ok(*number) } else { Err(Error::NoInput) }).collect::<Result<_, _>>().map(Column::Ints),
            Type::Text => Column::joined(scalars),
        }
    }

    fn joined(scalars: &[&Scalar]) -> Result<Column, Error> {
        let (mut bytes, mut ends) = (Vec::new(), Vec::new());
        for scalar in scalars {
            let Scalar::Text(text) = scalar else { return Err(Error::NoInput) };
            bytes.extend_from_slice(text.as_bytes());
            ends.push(bytes.len() as u64);
        }
        Ok(Column::Texts(bytes, ends))
    }
}

impl Container {
    /// Appends the members; a map has its subscripts in the order that the library asks for.
    fn append(&self, inputs: &Owner<OfInputs>) -> Result<(), Error> {
        let subscripts: Vec<_> = self.members.keys().collect();
        let members = self.members.values().map(|member| member.as_ref().ok_or(Error::NoInput)).collect::<Result<Vec<_>, _>>()?;
        let at = inputs.at();
        done(match (Column::of(&subscripts, self.by)?, Column::of(&members, self.of)?) {
            (Column::Ints(by), Column::Ints(all)) => unsafe { raw::yuglemit_raw_input_ints(at, by.as_ptr(), by.len(), all.as_ptr(), all.len()) },
            (Column::Ints(by), Column::Texts(all, ends)) => unsafe {
                raw::yuglemit_raw_input_texts(at, by.as_ptr(), by.len(), all.as_ptr(), all.len(), ends.as_ptr(), ends.len())
            },
            (Column::Texts(by, by_ends), Column::Ints(all)) => unsafe {
                raw::yuglemit_raw_input_ints_by_text(at, by.as_ptr(), by.len(), by_ends.as_ptr(), by_ends.len(), all.as_ptr(), all.len())
            },
            (Column::Texts(by, by_ends), Column::Texts(all, ends)) => unsafe {
                raw::yuglemit_raw_input_texts_by_text(
                    at, by.as_ptr(), by.len(), by_ends.as_ptr(), by_ends.len(), all.as_ptr(), all.len(), ends.as_ptr(), ends.len(),
                )
            },
        })
    }
}
