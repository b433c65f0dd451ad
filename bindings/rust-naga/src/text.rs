//! JSON as Yorwethul reads it. It differs from that of `serde_json` in two points: a map whose keys
//! are no texts is a list of pairs, as naga's predeclared types; and a float that JSON has no number
//! for is told by its bits, `{"bits": 2139095040}`.

use serde::ser::{self, Impossible, Serialize, Serializer};
use std::fmt::{self, Display, Write};

/// The JSON of a value.
pub fn to_json<T: Serialize + ?Sized>(value: &T) -> Result<String, Untold> {
    let mut text = Text(String::new());
    value.serialize(&mut text)?;
    Ok(text.0)
}

/// Why a value can't be told.
#[derive(Debug)]
pub struct Untold(String);

impl Display for Untold {
    fn fmt(&self, f: &mut fmt::Formatter<'_>) -> fmt::Result {
        f.write_str(&self.0)
    }
}

impl std::error::Error for Untold {}

impl ser::Error for Untold {
    fn custom<T: Display>(why: T) -> Untold {
        Untold(why.to_string())
    }
}

/// The text so far.
struct Text(String);

impl Text {
    fn put(&mut self, text: impl Display) {
        write!(self.0, "{text}").expect("a String takes all");
    }

    fn put_string(&mut self, text: &str) {
        self.0.push('"');
        for character in text.chars() {
            match character {
                '"' => self.0.push_str("\\\""),
                '\\' => self.0.push_str("\\\\"),
                character if character < ' ' => {
                    self.put(format_args!("\\u{:04x}", character as u32))
                }
                character => self.0.push(character),
            }
        }
        self.0.push('"');
    }

    /// What begins an object with one member, the content of a variant.
    fn open_variant(&mut self, name: &str) {
        self.0.push('{');
        self.put_string(name);
        self.0.push(':');
    }

    fn items(&mut self, open: &'static str, close: &'static str) -> Items<'_> {
        self.0.push_str(open);
        Items {
            text: self,
            is_first: true,
            close,
        }
    }
}

impl<'a> Serializer for &'a mut Text {
    type Ok = ();
    type Error = Untold;
    type SerializeSeq = Items<'a>;
    type SerializeTuple = Items<'a>;
    type SerializeTupleStruct = Items<'a>;
    type SerializeTupleVariant = Items<'a>;
    type SerializeMap = Entries<'a>;
    type SerializeStruct = Items<'a>;
    type SerializeStructVariant = Items<'a>;

    fn serialize_bool(self, value: bool) -> Result<(), Untold> {
        self.put(value);
        Ok(())
    }

    fn serialize_i8(self, value: i8) -> Result<(), Untold> {
        self.serialize_i64(value.into())
    }

    fn serialize_i16(self, value: i16) -> Result<(), Untold> {
        self.serialize_i64(value.into())
    }

    fn serialize_i32(self, value: i32) -> Result<(), Untold> {
        self.serialize_i64(value.into())
    }

    fn serialize_i64(self, value: i64) -> Result<(), Untold> {
        self.put(value);
        Ok(())
    }

    fn serialize_u8(self, value: u8) -> Result<(), Untold> {
        self.serialize_u64(value.into())
    }

    fn serialize_u16(self, value: u16) -> Result<(), Untold> {
        self.serialize_u64(value.into())
    }

    fn serialize_u32(self, value: u32) -> Result<(), Untold> {
        self.serialize_u64(value.into())
    }

    fn serialize_u64(self, value: u64) -> Result<(), Untold> {
        self.put(value);
        Ok(())
    }

    /// A finite one as the double that it is, which is read back as it was.
    fn serialize_f32(self, value: f32) -> Result<(), Untold> {
        if value.is_finite() {
            return self.serialize_f64(value.into());
        }
        self.put(format_args!(r#"{{"bits":{}}}"#, value.to_bits()));
        Ok(())
    }

    fn serialize_f64(self, value: f64) -> Result<(), Untold> {
        if value.is_finite() {
            self.put(format_args!("{value:?}"));
        } else {
            self.put(format_args!(r#"{{"bits":{}}}"#, value.to_bits()));
        }
        Ok(())
    }

    fn serialize_char(self, value: char) -> Result<(), Untold> {
        self.put_string(value.encode_utf8(&mut [0; 4]));
        Ok(())
    }

    fn serialize_str(self, value: &str) -> Result<(), Untold> {
        self.put_string(value);
        Ok(())
    }

    fn serialize_bytes(self, value: &[u8]) -> Result<(), Untold> {
        self.collect_seq(value)
    }

    fn serialize_none(self) -> Result<(), Untold> {
        self.serialize_unit()
    }

    fn serialize_some<T: Serialize + ?Sized>(self, value: &T) -> Result<(), Untold> {
        value.serialize(self)
    }

    fn serialize_unit(self) -> Result<(), Untold> {
        self.0.push_str("null");
        Ok(())
    }

    fn serialize_unit_struct(self, _name: &'static str) -> Result<(), Untold> {
        self.serialize_unit()
    }

    fn serialize_unit_variant(
        self,
        _name: &'static str,
        _index: u32,
        variant: &'static str,
    ) -> Result<(), Untold> {
        self.put_string(variant);
        Ok(())
    }

    fn serialize_newtype_struct<T: Serialize + ?Sized>(
        self,
        _name: &'static str,
        value: &T,
    ) -> Result<(), Untold> {
        value.serialize(self)
    }

    fn serialize_newtype_variant<T: Serialize + ?Sized>(
        self,
        _name: &'static str,
        _index: u32,
        variant: &'static str,
        value: &T,
    ) -> Result<(), Untold> {
        self.open_variant(variant);
        value.serialize(&mut *self)?;
        self.0.push('}');
        Ok(())
    }

    fn serialize_seq(self, _length: Option<usize>) -> Result<Items<'a>, Untold> {
        Ok(self.items("[", "]"))
    }

    fn serialize_tuple(self, _length: usize) -> Result<Items<'a>, Untold> {
        Ok(self.items("[", "]"))
    }

    fn serialize_tuple_struct(
        self,
        _name: &'static str,
        _length: usize,
    ) -> Result<Items<'a>, Untold> {
        Ok(self.items("[", "]"))
    }

    fn serialize_tuple_variant(
        self,
        _name: &'static str,
        _index: u32,
        variant: &'static str,
        _length: usize,
    ) -> Result<Items<'a>, Untold> {
        self.open_variant(variant);
        Ok(self.items("[", "]}"))
    }

    fn serialize_map(self, _length: Option<usize>) -> Result<Entries<'a>, Untold> {
        Ok(Entries {
            text: self,
            shape: Shape::Empty,
        })
    }

    fn serialize_struct(self, _name: &'static str, _length: usize) -> Result<Items<'a>, Untold> {
        Ok(self.items("{", "}"))
    }

    fn serialize_struct_variant(
        self,
        _name: &'static str,
        _index: u32,
        variant: &'static str,
        _length: usize,
    ) -> Result<Items<'a>, Untold> {
        self.open_variant(variant);
        Ok(self.items("{", "}}"))
    }
}

/// The items of a list, or the members of a struct, of which some stand in the text.
struct Items<'a> {
    text: &'a mut Text,
    is_first: bool,
    close: &'static str,
}

impl Items<'_> {
    fn begin(&mut self) {
        if !self.is_first {
            self.text.0.push(',');
        }
        self.is_first = false;
    }

    fn item<T: Serialize + ?Sized>(&mut self, value: &T) -> Result<(), Untold> {
        self.begin();
        value.serialize(&mut *self.text)
    }

    fn member<T: Serialize + ?Sized>(&mut self, name: &str, value: &T) -> Result<(), Untold> {
        self.begin();
        self.text.put_string(name);
        self.text.0.push(':');
        value.serialize(&mut *self.text)
    }

    fn close(self) {
        self.text.0.push_str(self.close);
    }
}

impl ser::SerializeSeq for Items<'_> {
    type Ok = ();
    type Error = Untold;

    fn serialize_element<T: Serialize + ?Sized>(&mut self, value: &T) -> Result<(), Untold> {
        self.item(value)
    }

    fn end(self) -> Result<(), Untold> {
        self.close();
        Ok(())
    }
}

impl ser::SerializeTuple for Items<'_> {
    type Ok = ();
    type Error = Untold;

    fn serialize_element<T: Serialize + ?Sized>(&mut self, value: &T) -> Result<(), Untold> {
        self.item(value)
    }

    fn end(self) -> Result<(), Untold> {
        self.close();
        Ok(())
    }
}

impl ser::SerializeTupleStruct for Items<'_> {
    type Ok = ();
    type Error = Untold;

    fn serialize_field<T: Serialize + ?Sized>(&mut self, value: &T) -> Result<(), Untold> {
        self.item(value)
    }

    fn end(self) -> Result<(), Untold> {
        self.close();
        Ok(())
    }
}

impl ser::SerializeTupleVariant for Items<'_> {
    type Ok = ();
    type Error = Untold;

    fn serialize_field<T: Serialize + ?Sized>(&mut self, value: &T) -> Result<(), Untold> {
        self.item(value)
    }

    fn end(self) -> Result<(), Untold> {
        self.close();
        Ok(())
    }
}

impl ser::SerializeStruct for Items<'_> {
    type Ok = ();
    type Error = Untold;

    fn serialize_field<T: Serialize + ?Sized>(
        &mut self,
        name: &'static str,
        value: &T,
    ) -> Result<(), Untold> {
        self.member(name, value)
    }

    fn end(self) -> Result<(), Untold> {
        self.close();
        Ok(())
    }
}

impl ser::SerializeStructVariant for Items<'_> {
    type Ok = ();
    type Error = Untold;

    fn serialize_field<T: Serialize + ?Sized>(
        &mut self,
        name: &'static str,
        value: &T,
    ) -> Result<(), Untold> {
        self.member(name, value)
    }

    fn end(self) -> Result<(), Untold> {
        self.close();
        Ok(())
    }
}

/// What the keys of a map make of it, of which the first decides.
#[derive(PartialEq, Eq)]
enum Shape {
    Empty,
    Object,
    Pairs,
}

/// The entries of a map, of which some stand in the text.
struct Entries<'a> {
    text: &'a mut Text,
    shape: Shape,
}

impl Entries<'_> {
    /// Puts a key that JSON can have, as it stands in an object, or the beginning of a pair.
    fn put_key(&mut self, key: &str, is_text: bool) -> Result<(), Untold> {
        match (&self.shape, is_text) {
            (Shape::Empty, true) => self.text.0.push('{'),
            (Shape::Empty, false) => self.text.0.push('['),
            (Shape::Object, true) | (Shape::Pairs, false) => self.text.0.push(','),
            _ => return Err(ser::Error::custom("a map with texts and others for keys")),
        }
        if is_text {
            self.shape = Shape::Object;
            self.text.0.push_str(key);
            self.text.0.push(':');
        } else {
            self.shape = Shape::Pairs;
            self.text.put(format_args!("[{key},"));
        }
        Ok(())
    }
}

impl ser::SerializeMap for Entries<'_> {
    type Ok = ();
    type Error = Untold;

    fn serialize_key<T: Serialize + ?Sized>(&mut self, key: &T) -> Result<(), Untold> {
        match key.serialize(Key) {
            Ok(text) => self.put_key(&to_json(&text)?, true),
            Err(_) => self.put_key(&to_json(key)?, false),
        }
    }

    fn serialize_value<T: Serialize + ?Sized>(&mut self, value: &T) -> Result<(), Untold> {
        value.serialize(&mut *self.text)?;
        if self.shape == Shape::Pairs {
            self.text.0.push(']');
        }
        Ok(())
    }

    fn end(self) -> Result<(), Untold> {
        self.text.0.push_str(match self.shape {
            Shape::Empty => "{}",
            Shape::Object => "}",
            Shape::Pairs => "]",
        });
        Ok(())
    }
}

/// Gives the text of a key that is one, or a number.
struct Key;

/// What is said of any other key.
fn no_text<T>() -> Result<T, Untold> {
    Err(ser::Error::custom("no text"))
}

impl Serializer for Key {
    type Ok = String;
    type Error = Untold;
    type SerializeSeq = Impossible<String, Untold>;
    type SerializeTuple = Impossible<String, Untold>;
    type SerializeTupleStruct = Impossible<String, Untold>;
    type SerializeTupleVariant = Impossible<String, Untold>;
    type SerializeMap = Impossible<String, Untold>;
    type SerializeStruct = Impossible<String, Untold>;
    type SerializeStructVariant = Impossible<String, Untold>;

    fn serialize_bool(self, _value: bool) -> Result<String, Untold> {
        no_text()
    }

    fn serialize_i8(self, value: i8) -> Result<String, Untold> {
        Ok(value.to_string())
    }

    fn serialize_i16(self, value: i16) -> Result<String, Untold> {
        Ok(value.to_string())
    }

    fn serialize_i32(self, value: i32) -> Result<String, Untold> {
        Ok(value.to_string())
    }

    fn serialize_i64(self, value: i64) -> Result<String, Untold> {
        Ok(value.to_string())
    }

    fn serialize_u8(self, value: u8) -> Result<String, Untold> {
        Ok(value.to_string())
    }

    fn serialize_u16(self, value: u16) -> Result<String, Untold> {
        Ok(value.to_string())
    }

    fn serialize_u32(self, value: u32) -> Result<String, Untold> {
        Ok(value.to_string())
    }

    fn serialize_u64(self, value: u64) -> Result<String, Untold> {
        Ok(value.to_string())
    }

    fn serialize_f32(self, _value: f32) -> Result<String, Untold> {
        no_text()
    }

    fn serialize_f64(self, _value: f64) -> Result<String, Untold> {
        no_text()
    }

    fn serialize_char(self, value: char) -> Result<String, Untold> {
        Ok(value.into())
    }

    fn serialize_str(self, value: &str) -> Result<String, Untold> {
        Ok(value.into())
    }

    fn serialize_bytes(self, _value: &[u8]) -> Result<String, Untold> {
        no_text()
    }

    fn serialize_none(self) -> Result<String, Untold> {
        no_text()
    }

    fn serialize_some<T: Serialize + ?Sized>(self, _value: &T) -> Result<String, Untold> {
        no_text()
    }

    fn serialize_unit(self) -> Result<String, Untold> {
        no_text()
    }

    fn serialize_unit_struct(self, _name: &'static str) -> Result<String, Untold> {
        no_text()
    }

    fn serialize_unit_variant(
        self,
        _name: &'static str,
        _index: u32,
        _variant: &'static str,
    ) -> Result<String, Untold> {
        no_text()
    }

    fn serialize_newtype_struct<T: Serialize + ?Sized>(
        self,
        _name: &'static str,
        value: &T,
    ) -> Result<String, Untold> {
        value.serialize(self)
    }

    fn serialize_newtype_variant<T: Serialize + ?Sized>(
        self,
        _name: &'static str,
        _index: u32,
        _variant: &'static str,
        _value: &T,
    ) -> Result<String, Untold> {
        no_text()
    }

    fn serialize_seq(self, _length: Option<usize>) -> Result<Self::SerializeSeq, Untold> {
        no_text()
    }

    fn serialize_tuple(self, _length: usize) -> Result<Self::SerializeTuple, Untold> {
        no_text()
    }

    fn serialize_tuple_struct(
        self,
        _name: &'static str,
        _length: usize,
    ) -> Result<Self::SerializeTupleStruct, Untold> {
        no_text()
    }

    fn serialize_tuple_variant(
        self,
        _name: &'static str,
        _index: u32,
        _variant: &'static str,
        _length: usize,
    ) -> Result<Self::SerializeTupleVariant, Untold> {
        no_text()
    }

    fn serialize_map(self, _length: Option<usize>) -> Result<Self::SerializeMap, Untold> {
        no_text()
    }

    fn serialize_struct(
        self,
        _name: &'static str,
        _length: usize,
    ) -> Result<Self::SerializeStruct, Untold> {
        no_text()
    }

    fn serialize_struct_variant(
        self,
        _name: &'static str,
        _index: u32,
        _variant: &'static str,
        _length: usize,
    ) -> Result<Self::SerializeStructVariant, Untold> {
        no_text()
    }
}

#[cfg(test)]
mod tests {
    use super::to_json;
    use serde::ser::{Serialize, SerializeMap, Serializer};

    /// A map of these entries.
    struct Map<K, V>(Vec<(K, V)>);

    impl<K: Serialize, V: Serialize> Serialize for Map<K, V> {
        fn serialize<S: Serializer>(&self, serializer: S) -> Result<S::Ok, S::Error> {
            let mut map = serializer.serialize_map(Some(self.0.len()))?;
            for (key, value) in &self.0 {
                map.serialize_entry(key, value)?;
            }
            map.end()
        }
    }

    fn told<T: Serialize>(value: T) -> String {
        to_json(&value).unwrap()
    }

    #[test]
    fn values() {
        assert_eq!(
            told((true, -3i8, u64::MAX, 'a', ())),
            "[true,-3,18446744073709551615,\"a\",null]"
        );
        assert_eq!(told([Some(1), None]), "[1,null]");
        assert_eq!(told([0; 0]), "[]");
        assert_eq!(told("a\"b\\c\n\u{1}é"), r#""a\"b\\c\u000a\u0001é""#);
    }

    #[test]
    fn floats_are_told_whole() {
        assert_eq!(told(0.5f32), "0.5");
        assert_eq!(told(-0.0f64), "-0.0");
        assert_eq!(told(0.1f32), "0.10000000149011612");
        assert_eq!(told(f32::INFINITY), r#"{"bits":2139095040}"#);
        assert_eq!(
            told(f64::NAN),
            format!(r#"{{"bits":{}}}"#, f64::NAN.to_bits())
        );
        for bits in (0..u32::MAX)
            .step_by(1_000_003)
            .filter(|bits| f32::from_bits(*bits).is_finite())
        {
            let float = f32::from_bits(bits);
            assert_eq!(told(float).parse::<f64>().unwrap() as f32, float);
        }
    }

    #[test]
    fn maps() {
        assert_eq!(told(Map(vec![("a", 1), ("b", 2)])), r#"{"a":1,"b":2}"#);
        assert_eq!(told(Map(vec![(7, "x"), (8, "y")])), r#"{"7":"x","8":"y"}"#);
        assert_eq!(
            told(Map(vec![((1, 2), 3), ((4, 5), 6)])),
            "[[[1,2],3],[[4,5],6]]"
        );
        assert_eq!(told(Map::<u8, u8>(vec![])), "{}");
        assert_eq!(told((Map(vec![([1], 2)]), 3)), "[[[[1],2]],3]");
    }

    #[test]
    fn what_a_value_refuses_is_told() {
        struct Odd;
        impl Serialize for Odd {
            fn serialize<S: Serializer>(&self, _: S) -> Result<S::Ok, S::Error> {
                Err(serde::ser::Error::custom("odd"))
            }
        }
        assert_eq!(to_json(&[Odd]).unwrap_err().to_string(), "odd");
        assert_eq!(
            to_json(&Map(vec![(Odd, 1)])).unwrap_err().to_string(),
            "odd"
        );
    }
}
