//! The extension of a subject's attributes.
use super::list;
use crate::elements::values;
use crate::error::Error;
use crate::ffi::{self, RequestAttribute};
use crate::oid::ObjectIdentifier;

/// An attribute of a subject (RFC 5280 4.2.1.8).
#[derive(Clone, Debug, PartialEq, Eq, Hash)]
pub struct DirectoryAttribute<'a> {
    /// Its type.
    pub oid: ObjectIdentifier,

    /// Its values, each a whole element, in the order of their encodings (X.690 11.6).
    pub values: Vec<&'a [u8]>,
}

impl<'a> DirectoryAttribute<'a> {
    fn found(view: RequestAttribute, data: &'a [u8]) -> Result<DirectoryAttribute<'a>, Error> {
        Ok(DirectoryAttribute {
            oid: ObjectIdentifier::found(view.oid.of(data)?)?,
            values: values(view.values.of(data)?)?,
        })
    }
}

list! {
    /// Attributes of the subject (RFC 5280 4.2.1.8).
    SubjectDirectoryAttributes, SUBJECT_DIRECTORY_ATTRIBUTES, DirectoryAttribute<'a>, |value| {
        ffi::DIRECTORY_ATTRIBUTES.over(value).map(|view| DirectoryAttribute::found(view?, value)).collect()
    }
}
