//! Values, what can be one as a parameter, and what a value or a row can become.
use crate::error::{Error, Result};

/// A value of a row.
#[derive(Clone, Debug, PartialEq, Eq, Hash)]
pub enum Value {
    /// NULL.
    Null,
    /// An INTEGER.
    Integer(i64),
    /// A VARCHAR.
    Text(String),
}

/// A value that is lent for a parameter.
#[derive(Clone, Copy, Debug, PartialEq, Eq)]
pub enum ValueRef<'a> {
    /// NULL.
    Null,
    /// An INTEGER.
    Integer(i64),
    /// A VARCHAR.
    Text(&'a str),
}

/// What can be the value of a parameter.
pub trait ToValue {
    /// The value.
    fn to_value(&self) -> ValueRef<'_>;
}

macro_rules! integers_to_value {
    ($($integer:ty)*) => {$(
        impl ToValue for $integer {
            fn to_value(&self) -> ValueRef<'_> {
                ValueRef::Integer(i64::from(*self))
            }
        }
    )*};
}
integers_to_value!(i64 i32 i16 i8 u32 u16 u8);

impl ToValue for str {
    fn to_value(&self) -> ValueRef<'_> {
        ValueRef::Text(self)
    }
}

impl ToValue for String {
    fn to_value(&self) -> ValueRef<'_> {
        ValueRef::Text(self)
    }
}

impl ToValue for Value {
    fn to_value(&self) -> ValueRef<'_> {
        match self {
            Value::Null => ValueRef::Null,
            Value::Integer(integer) => ValueRef::Integer(*integer),
            Value::Text(text) => ValueRef::Text(text),
        }
    }
}

impl<T: ToValue> ToValue for Option<T> {
    fn to_value(&self) -> ValueRef<'_> {
        self.as_ref().map_or(ValueRef::Null, ToValue::to_value)
    }
}

impl<T: ToValue + ?Sized> ToValue for &T {
    fn to_value(&self) -> ValueRef<'_> {
        (**self).to_value()
    }
}

/// The values of a statement's parameters, the first for the first question mark: `()`, a tuple of up to eight, an array or a slice.
pub trait Parameters {
    /// Calls `each` with every value, in order, up to the first failure.
    fn try_each(&self, each: &mut dyn FnMut(ValueRef<'_>) -> Result<()>) -> Result<()>;
}

impl<T: ToValue> Parameters for [T] {
    fn try_each(&self, each: &mut dyn FnMut(ValueRef<'_>) -> Result<()>) -> Result<()> {
        self.iter().try_for_each(|value| each(value.to_value()))
    }
}

impl<T: ToValue, const N: usize> Parameters for [T; N] {
    fn try_each(&self, each: &mut dyn FnMut(ValueRef<'_>) -> Result<()>) -> Result<()> {
        self.as_slice().try_each(each)
    }
}

impl<T: Parameters + ?Sized> Parameters for &T {
    fn try_each(&self, each: &mut dyn FnMut(ValueRef<'_>) -> Result<()>) -> Result<()> {
        (**self).try_each(each)
    }
}

impl Parameters for () {
    fn try_each(&self, _: &mut dyn FnMut(ValueRef<'_>) -> Result<()>) -> Result<()> {
        Ok(())
    }
}

/// What a value of a row can become.
pub trait FromValue: Sized {
    /// What it is called in [`Error::Type`].
    const WANTED: &'static str;

    /// The value as this; none where it can't be.
    fn from_value(value: Value) -> Option<Self>;
}

impl FromValue for Value {
    const WANTED: &'static str = "value";

    fn from_value(value: Value) -> Option<Value> {
        Some(value)
    }
}

impl FromValue for String {
    const WANTED: &'static str = "text";

    fn from_value(value: Value) -> Option<String> {
        match value {
            Value::Text(text) => Some(text),
            _ => None,
        }
    }
}

macro_rules! integers_from_value {
    ($($integer:ty)*) => {$(
        impl FromValue for $integer {
            const WANTED: &'static str = stringify!($integer);

            fn from_value(value: Value) -> Option<$integer> {
                match value {
                    Value::Integer(integer) => integer.try_into().ok(),
                    _ => None,
                }
            }
        }
    )*};
}
integers_from_value!(i64 i32 i16 i8 u64 u32 u16 u8 usize);

impl<T: FromValue> FromValue for Option<T> {
    const WANTED: &'static str = T::WANTED;

    fn from_value(value: Value) -> Option<Option<T>> {
        match value {
            Value::Null => Some(None),
            value => T::from_value(value).map(Some),
        }
    }
}

/// What a row can become: a `Vec<Value>`, or a tuple of up to eight that is as long as the row.
pub trait FromRow: Sized {
    /// The row as this.
    ///
    /// # Errors
    /// [`Error::Type`] where a value can't be what is wanted, or where the row has another number of columns.
    fn from_row(values: Vec<Value>) -> Result<Self>;
}

impl FromRow for Vec<Value> {
    fn from_row(values: Vec<Value>) -> Result<Vec<Value>> {
        Ok(values)
    }
}

fn next<T: FromValue>(column: usize, values: &mut impl Iterator<Item = Value>) -> Result<T> {
    values.next().and_then(T::from_value).ok_or(Error::Type { column, wanted: T::WANTED })
}

macro_rules! tuples {
    ($(($($name:ident $place:tt),+))*) => {$(
        impl<$($name: ToValue),+> Parameters for ($($name,)+) {
            fn try_each(&self, each: &mut dyn FnMut(ValueRef<'_>) -> Result<()>) -> Result<()> {
                $(each(self.$place.to_value())?;)+
                Ok(())
            }
        }

        impl<$($name: FromValue),+> FromRow for ($($name,)+) {
            fn from_row(values: Vec<Value>) -> Result<Self> {
                let mut left = values.into_iter();
                let row = ($(next::<$name>($place, &mut left)?,)+);
                match left.next() {
                    None => Ok(row),
                    Some(_) => Err(Error::Type { column: [$($place),+].len(), wanted: "column of a shorter row" }),
                }
            }
        }
    )*};
}
tuples! {
    (A 0)
    (A 0, B 1)
    (A 0, B 1, C 2)
    (A 0, B 1, C 2, D 3)
    (A 0, B 1, C 2, D 3, E 4)
    (A 0, B 1, C 2, D 3, E 4, F 5)
    (A 0, B 1, C 2, D 3, E 4, F 5, G 6)
    (A 0, B 1, C 2, D 3, E 4, F 5, G 6, H 7)
}
