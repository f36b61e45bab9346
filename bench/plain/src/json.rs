//! Members of SIRI's JSON, read straight from the text: no tree is made, and members that aren't read leave nothing.
//! Null, an empty text and an empty array count as missing; of equal names in one object the last counts.

use crate::fault::Fault;
use serde::de::{Deserialize, Deserializer, Error, MapAccess, SeqAccess, Visitor};
use std::borrow::Cow;
use std::fmt::{self, Formatter};
use std::marker::PhantomData;

/// What a type makes of a JSON value of each kind; a kind that it doesn't name is wrong.
pub trait Form<'a>: Sized {
    fn missing() -> Self;
    fn wrong() -> Self;

    fn boolean(_: bool) -> Self {
        Self::wrong()
    }
    fn whole(_: u64) -> Self {
        Self::wrong()
    }
    /// A text that isn't empty.
    fn text(_: &'a str) -> Self {
        Self::wrong()
    }
    /// One that stood with escapes.
    fn escaped(_: &str) -> Self {
        Self::wrong()
    }
    fn array<A: SeqAccess<'a>>(items: A) -> Result<Self, A::Error> {
        Ok(if skip_items(items)? { Self::wrong() } else { Self::missing() })
    }
    fn object<A: MapAccess<'a>>(members: A) -> Result<Self, A::Error> {
        skip_members(members)?;
        Ok(Self::wrong())
    }
}

/// Whether there were items.
fn skip_items<'a, A: SeqAccess<'a>>(mut items: A) -> Result<bool, A::Error> {
    let mut any = false;
    while items.next_element::<Read<Skip>>()?.is_some() {
        any = true;
    }
    Ok(any)
}

fn skip_members<'a, A: MapAccess<'a>>(mut members: A) -> Result<(), A::Error> {
    while members.next_entry::<Read<Skip>, Read<Skip>>()?.is_some() {}
    Ok(())
}

/// A form as serde reads it.
pub struct Read<F>(pub F);

impl<'a, F: Form<'a>> Deserialize<'a> for Read<F> {
    fn deserialize<D: Deserializer<'a>>(deserializer: D) -> Result<Self, D::Error> {
        deserializer.deserialize_any(FormVisitor(PhantomData)).map(Read)
    }
}

struct FormVisitor<F>(PhantomData<F>);

impl<'a, F: Form<'a>> Visitor<'a> for FormVisitor<F> {
    type Value = F;

    fn expecting(&self, f: &mut Formatter) -> fmt::Result {
        f.write_str("a value")
    }
    fn visit_unit<E: Error>(self) -> Result<F, E> {
        Ok(F::missing())
    }
    fn visit_bool<E: Error>(self, value: bool) -> Result<F, E> {
        Ok(F::boolean(value))
    }
    fn visit_u64<E: Error>(self, value: u64) -> Result<F, E> {
        Ok(F::whole(value))
    }
    fn visit_i64<E: Error>(self, _: i64) -> Result<F, E> {
        Ok(F::wrong())
    }
    fn visit_f64<E: Error>(self, _: f64) -> Result<F, E> {
        Ok(F::wrong())
    }
    fn visit_borrowed_str<E: Error>(self, text: &'a str) -> Result<F, E> {
        Ok(if text.is_empty() { F::missing() } else { F::text(text) })
    }
    fn visit_str<E: Error>(self, text: &str) -> Result<F, E> {
        Ok(if text.is_empty() { F::missing() } else { F::escaped(text) })
    }
    fn visit_seq<A: SeqAccess<'a>>(self, items: A) -> Result<F, A::Error> {
        F::array(items)
    }
    fn visit_map<A: MapAccess<'a>>(self, members: A) -> Result<F, A::Error> {
        F::object(members)
    }
}

/// A value that isn't read, but has to be JSON.
struct Skip;

impl<'a> Form<'a> for Skip {
    fn missing() -> Skip {
        Skip
    }
    fn wrong() -> Skip {
        Skip
    }
}

/// Whether something stands there, whatever it is.
pub struct Present(pub bool);

impl<'a> Form<'a> for Present {
    fn missing() -> Present {
        Present(false)
    }
    fn wrong() -> Present {
        Present(true)
    }
}

/// A Text, a Flag or a Whole.
pub enum Leaf<'a> {
    Missing,
    Wrong,
    Bool(bool),
    Whole(u64),
    Text(Cow<'a, str>),
}

impl<'a> Form<'a> for Leaf<'a> {
    fn missing() -> Self {
        Leaf::Missing
    }
    fn wrong() -> Self {
        Leaf::Wrong
    }
    fn boolean(value: bool) -> Self {
        Leaf::Bool(value)
    }
    fn whole(value: u64) -> Self {
        Leaf::Whole(value)
    }
    fn text(text: &'a str) -> Self {
        Leaf::Text(Cow::Borrowed(text))
    }
    fn escaped(text: &str) -> Self {
        Leaf::Text(Cow::Owned(text.to_owned()))
    }
    /// The first item counts.
    fn array<A: SeqAccess<'a>>(mut items: A) -> Result<Self, A::Error> {
        match items.next_element::<Read<First>>()? {
            None => Ok(Leaf::Missing),
            Some(Read(First(first))) => skip_items(items).map(|_| first),
        }
    }
    /// The member `value` counts.
    fn object<A: MapAccess<'a>>(mut members: A) -> Result<Self, A::Error> {
        let mut value = Leaf::Missing;
        while let Some(IsValue(is_value)) = members.next_key()? {
            if is_value {
                let Read(Inner(found)) = members.next_value()?;
                value = found;
            } else {
                members.next_value::<Read<Skip>>()?;
            }
        }
        Ok(value)
    }
}

/// The first item of an array: a text, or an object with a value.
struct First<'a>(Leaf<'a>);

impl<'a> Form<'a> for First<'a> {
    fn missing() -> Self {
        First(Leaf::Missing)
    }
    fn wrong() -> Self {
        First(Leaf::Wrong)
    }
    fn text(text: &'a str) -> Self {
        First(Leaf::text(text))
    }
    fn escaped(text: &str) -> Self {
        First(Leaf::escaped(text))
    }
    fn array<A: SeqAccess<'a>>(items: A) -> Result<Self, A::Error> {
        skip_items(items).map(|_| Self::wrong())
    }
    fn object<A: MapAccess<'a>>(members: A) -> Result<Self, A::Error> {
        Leaf::object(members).map(First)
    }
}

/// The member `value`: a text.
struct Inner<'a>(Leaf<'a>);

impl<'a> Form<'a> for Inner<'a> {
    fn missing() -> Self {
        Inner(Leaf::Missing)
    }
    fn wrong() -> Self {
        Inner(Leaf::Wrong)
    }
    fn text(text: &'a str) -> Self {
        Inner(Leaf::text(text))
    }
    fn escaped(text: &str) -> Self {
        Inner(Leaf::escaped(text))
    }
}

struct IsValue(bool);

impl<'a> Deserialize<'a> for IsValue {
    fn deserialize<D: Deserializer<'a>>(deserializer: D) -> Result<Self, D::Error> {
        deserializer.deserialize_identifier(NameVisitor(|name: &str| name == "value")).map(IsValue)
    }
}

/// Tells names of members apart.
pub struct NameVisitor<F>(pub F);

impl<'a, T, F: FnOnce(&str) -> T> Visitor<'a> for NameVisitor<F> {
    type Value = T;

    fn expecting(&self, f: &mut Formatter) -> fmt::Result {
        f.write_str("a name")
    }
    fn visit_str<E: Error>(self, name: &str) -> Result<T, E> {
        Ok(self.0(name))
    }
}

impl<'a> Leaf<'a> {
    pub fn as_text(&self, name: &'static str) -> Result<Option<&str>, Fault> {
        match self {
            Leaf::Missing => Ok(None),
            Leaf::Text(text) => Ok(Some(text)),
            _ => Err(Fault::BadField(name)),
        }
    }

    pub fn needed(&self, name: &'static str) -> Result<&str, Fault> {
        self.as_text(name)?.ok_or(Fault::BadField(name))
    }

    /// What `read` makes of a Text.
    pub fn read<T>(&self, name: &'static str, read: impl FnOnce(&str) -> Option<T>) -> Result<Option<T>, Fault> {
        match self.as_text(name)? {
            None => Ok(None),
            Some(text) => read(text).map(Some).ok_or(Fault::BadField(name)),
        }
    }

    pub fn flag(&self, name: &'static str) -> Result<bool, Fault> {
        if let Leaf::Bool(value) = self {
            return Ok(*value);
        }
        let read = |text: &str| match text {
            "true" | "1" => Some(true),
            "false" | "0" => Some(false),
            _ => None,
        };
        Ok(self.read(name, read)?.unwrap_or(false))
    }

    pub fn whole_number(&self, name: &'static str) -> Result<Option<u64>, Fault> {
        if let Leaf::Whole(value) = self {
            return Ok(Some(*value));
        }
        let is_short = |text: &str| text.len() <= 20 && text.bytes().all(|byte| byte.is_ascii_digit());
        self.read(name, |text| if is_short(text) { text.parse().ok() } else { None })
    }
}

/// The members that are read of an object.
pub trait Members<'a>: Sized {
    fn read<A: MapAccess<'a>>(members: A) -> Result<Self, A::Error>;
}

/// An object.
pub enum Object<T> {
    Missing,
    Wrong,
    Present(T),
}

impl<'a, T: Members<'a>> Form<'a> for Object<T> {
    fn missing() -> Self {
        Object::Missing
    }
    fn wrong() -> Self {
        Object::Wrong
    }
    fn object<A: MapAccess<'a>>(members: A) -> Result<Self, A::Error> {
        T::read(members).map(Object::Present)
    }
}

impl<T> Object<T> {
    pub fn get(&self, name: &'static str) -> Result<Option<&T>, Fault> {
        match self {
            Object::Missing => Ok(None),
            Object::Wrong => Err(Fault::BadField(name)),
            Object::Present(object) => Ok(Some(object)),
        }
    }
}

/// An item of a repeated element: None where it is no object.
impl<'a, T: Members<'a>> Form<'a> for Option<T> {
    fn missing() -> Self {
        None
    }
    fn wrong() -> Self {
        None
    }
    fn array<A: SeqAccess<'a>>(items: A) -> Result<Self, A::Error> {
        skip_items(items).map(|_| None)
    }
    fn object<A: MapAccess<'a>>(members: A) -> Result<Self, A::Error> {
        T::read(members).map(Some)
    }
}

/// An array, or one item.
pub struct Repeated<T>(pub Vec<Option<T>>);

impl<'a, T: Members<'a>> Form<'a> for Repeated<T> {
    fn missing() -> Self {
        Repeated(Vec::new())
    }
    fn wrong() -> Self {
        Repeated(vec![None])
    }
    fn array<A: SeqAccess<'a>>(mut items: A) -> Result<Self, A::Error> {
        let mut all = Vec::new();
        while let Some(Read(item)) = items.next_element()? {
            all.push(item);
        }
        Ok(Repeated(all))
    }
    fn object<A: MapAccess<'a>>(members: A) -> Result<Self, A::Error> {
        Ok(Repeated(vec![Some(T::read(members)?)]))
    }
}

impl<T> Repeated<T> {
    pub fn objects(&self, name: &'static str) -> Result<impl Iterator<Item = &T>, Fault> {
        if self.0.iter().any(Option::is_none) {
            return Err(Fault::BadField(name));
        }
        Ok(self.0.iter().flatten())
    }
}

/// A repeated element that has to be there, though it may be an empty array.
pub struct Needed<T>(pub Option<Repeated<T>>);

impl<'a, T: Members<'a>> Form<'a> for Needed<T> {
    fn missing() -> Self {
        Needed(None)
    }
    fn wrong() -> Self {
        Needed(Some(Repeated::wrong()))
    }
    fn array<A: SeqAccess<'a>>(items: A) -> Result<Self, A::Error> {
        Repeated::array(items).map(|items| Needed(Some(items)))
    }
    fn object<A: MapAccess<'a>>(members: A) -> Result<Self, A::Error> {
        Repeated::object(members).map(|items| Needed(Some(items)))
    }
}

/// Structs of members, each with its form and its name.
macro_rules! members {
    ($($name:ident<$life:lifetime $(, $param:ident)?> { $($field:ident: $form:ty = $key:literal,)* })*) => {$(
        pub struct $name<$life $(, $param)?> {
            $(pub $field: $form,)*
            pub life: std::marker::PhantomData<&$life ()>,
        }

        impl<$life $(, $param: $crate::json::Members<$life>)?> $crate::json::Members<$life> for $name<$life $(, $param)?> {
            fn read<A: serde::de::MapAccess<$life>>(mut members: A) -> Result<Self, A::Error> {
                #[allow(non_camel_case_types)]
                enum Name { $($field,)* Other }
                impl<'de> serde::Deserialize<'de> for Name {
                    fn deserialize<D: serde::Deserializer<'de>>(deserializer: D) -> Result<Name, D::Error> {
                        deserializer.deserialize_identifier($crate::json::NameVisitor(|name: &str| match name {
                            $($key => Name::$field,)*
                            _ => Name::Other,
                        }))
                    }
                }
                $(let mut $field = <$form as $crate::json::Form>::missing();)*
                while let Some(name) = members.next_key()? {
                    match name {
                        $(Name::$field => $field = members.next_value::<$crate::json::Read<$form>>()?.0,)*
                        Name::Other => $crate::json::skip(&mut members)?,
                    }
                }
                Ok($name { $($field,)* life: std::marker::PhantomData })
            }
        }
    )*};
}
pub(crate) use members;

pub fn skip<'a, A: MapAccess<'a>>(members: &mut A) -> Result<(), A::Error> {
    members.next_value::<Read<Skip>>().map(|_| ())
}
