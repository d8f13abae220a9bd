//! Values that no call of their own divides: the library checks them, finds the elements in them, and reads these. Nothing here parses DER.
use crate::csr::AttributeValue;
use crate::error::Error;
use crate::ffi::{self, Span};
use crate::integer::Integer;
use crate::writing::SET;

/// The part of the bytes, where so many octets more stood in front of them.
fn behind(span: Span, front: usize, data: &[u8]) -> Result<&[u8], Error> {
    let place = span.place.checked_sub(front).ok_or(Error::Unexpected)?;
    let len = span.len;
    Span { place, len }.of(data)
}

/// The elements that stand one behind the other. The values of an attribute may be of any type, so the walk over them is one over any elements.
fn elements(data: &[u8]) -> Result<Vec<AttributeValue<'_>>, Error> {
    let within = ffi::build::element(SET, data)?;
    let front = within.len().saturating_sub(data.len());
    let members = ffi::ATTRIBUTE_VALUES.over(&within);
    let found = members.map(|view| {
        let view = view?;
        Ok(AttributeValue {
            tag: u8::try_from(view.tag).map_err(|_| Error::Unexpected)?,
            content: behind(view.content, front, data)?,
            der: behind(view.element, front, data)?,
        })
    });
    found.collect()
}

/// The content octets of the one element that the bytes are, which has this identifier octet.
pub(crate) fn only(data: &[u8], tag: u8) -> Result<&[u8], Error> {
    match elements(data)?[..] {
        [found] if found.tag == tag => Ok(found.content),
        _ => Err(Error::Malformed),
    }
}

/// The values of an attribute, a whole SET, each a whole element.
pub(crate) fn values(set: &[u8]) -> Result<Vec<&[u8]>, Error> {
    let members = ffi::ATTRIBUTE_VALUES.over(set);
    members.map(|view| view?.element.of(set)).collect()
}

/// The numbers of a SEQUENCE of them, none of which is negative.
pub(crate) fn numbers(der: &[u8]) -> Result<Vec<Integer<'_>>, Error> {
    let members = ffi::NUMBERS.over(der);
    members.map(|span| span?.of(der).map(Integer)).collect()
}
