//! Stand-in for the XML package: it hands an event, already parsed from event lines, to the handlers.
//! It does no XML: names and values are given unescaped and without prefix, and keys are already known to differ.

use std::borrow::Cow;
use std::marker::PhantomData;
use std::ops::Range;

pub type Error = String;

/// A name as bytes, of an element or a key.
#[derive(Debug, Clone, Copy)]
pub struct Name<'a>(pub &'a [u8]);

impl AsRef<[u8]> for Name<'_> {
    fn as_ref(&self) -> &[u8] {
        self.0
    }
}

/// Turns bytes into text.
#[derive(Debug, Clone, Copy)]
pub struct Decoder;

impl Decoder {
    pub fn decode<'b>(&self, bytes: &'b [u8]) -> Result<Cow<'b, str>, Error> {
        std::str::from_utf8(bytes).map(Cow::Borrowed).map_err(|e| e.to_string())
    }
}

/// The settings that `process` changes; without effect here.
pub struct Config;

impl Config {
    pub fn trim_text(&mut self, _on: bool) {}
}

/// The place in the document. Here it knows only how long the text of the present `whole` event is.
pub struct Reader<R> {
    length: u64,
    config: Config,
    kind: PhantomData<R>,
}

impl<'a> Reader<&'a [u8]> {
    /// A reader standing before a text of `length` bytes that is the whole content of the element.
    pub fn before_text(length: usize) -> Self {
        Reader { length: length as u64, config: Config, kind: PhantomData }
    }

    pub fn from_str(text: &'a str) -> Self {
        Reader::before_text(text.len())
    }

    pub fn config_mut(&mut self) -> &mut Config {
        &mut self.config
    }

    /// `process` is never run: the driver calls the handlers as `process` would.
    pub fn read_event(&mut self) -> Result<events::Event<'a>, Error> {
        Ok(events::Event::Eof)
    }

    pub fn buffer_position(&self) -> u64 {
        0
    }

    pub fn decoder(&self) -> Decoder {
        Decoder
    }

    /// The span of the text up to the end tag: all of it.
    pub fn read_to_end_into(&mut self, _end: Name, _buffer: &mut Vec<u8>) -> Result<Range<u64>, Error> {
        Ok(0..self.length)
    }
}

pub mod events {
    use super::{Error, Name};
    use attributes::Attributes;
    use std::borrow::Cow;

    /// A start tag: a name and pairs of key and value.
    #[derive(Debug)]
    pub struct BytesStart<'a> {
        name: Cow<'a, str>,
        pairs: &'a [(String, String)],
    }

    impl<'a> BytesStart<'a> {
        pub fn new<C: Into<Cow<'a, str>>>(name: C) -> Self {
            BytesStart { name: name.into(), pairs: &[] }
        }

        pub fn with_pairs(name: &'a str, pairs: &'a [(String, String)]) -> Self {
            BytesStart { name: Cow::Borrowed(name), pairs }
        }

        pub fn local_name(&self) -> Name<'_> {
            Name(self.name.as_bytes())
        }

        pub fn attributes(&self) -> Attributes<'_> {
            Attributes { left: self.pairs.iter() }
        }

        pub fn to_end(&self) -> BytesEnd<'_> {
            BytesEnd { name: Cow::Borrowed(self.name.as_ref()) }
        }
    }

    #[derive(Debug)]
    pub struct BytesEnd<'a> {
        name: Cow<'a, str>,
    }

    impl BytesEnd<'_> {
        pub fn into_owned(self) -> BytesEnd<'static> {
            BytesEnd { name: Cow::Owned(self.name.into_owned()) }
        }

        pub fn name(&self) -> Name<'_> {
            Name(self.name.as_bytes())
        }

        pub fn local_name(&self) -> Name<'_> {
            self.name()
        }
    }

    #[derive(Debug)]
    pub struct BytesText<'a>(pub &'a str);

    impl<'a> BytesText<'a> {
        pub fn unescape(&self) -> Result<Cow<'a, str>, Error> {
            Ok(Cow::Borrowed(self.0))
        }
    }

    /// The cases that `process` tells apart, and one for all others.
    #[derive(Debug)]
    pub enum Event<'a> {
        Eof,
        Start(BytesStart<'a>),
        End(BytesEnd<'a>),
        Empty(BytesStart<'a>),
        Text(BytesText<'a>),
        Comment(BytesText<'a>),
        Other,
    }

    pub mod attributes {
        use super::super::{Decoder, Error, Name};
        use std::borrow::Cow;

        pub struct Attributes<'a> {
            pub(super) left: std::slice::Iter<'a, (String, String)>,
        }

        #[derive(Debug)]
        pub struct Attribute<'a> {
            pub key: Name<'a>,
            value: &'a str,
        }

        impl<'a> Attribute<'a> {
            pub fn decode_and_unescape_value(&self, _decoder: Decoder) -> Result<Cow<'a, str>, Error> {
                Ok(Cow::Borrowed(self.value))
            }
        }

        impl<'a> Iterator for Attributes<'a> {
            type Item = Result<Attribute<'a>, Error>;

            fn next(&mut self) -> Option<Self::Item> {
                let (key, value) = self.left.next()?;
                Some(Ok(Attribute { key: Name(key.as_bytes()), value }))
            }
        }
    }
}
