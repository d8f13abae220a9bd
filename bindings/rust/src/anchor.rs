//! Trust anchors (RFC 5914).
use crate::error::Error;
use crate::extension::Extensions;
use crate::ffi;
use crate::lint::{self, Finding};
use crate::name::NameRef;
use std::fmt;

/// What a trust anchor is (RFC 5914 3).
#[derive(Clone, Copy, Debug, PartialEq, Eq, Hash)]
pub enum AnchorKind {
    /// A Certificate.
    Certificate,

    /// A TBSCertificate: a certificate without its signature.
    TbsCertificate,

    /// A TrustAnchorInfo: a key, and what is asked of paths.
    Info,
}

/// A trust anchor, by its bytes, which are borrowed. Anchors are equal byte for byte.
///
/// ```
/// use x509_rattle::{AnchorKind, TrustAnchor};
///
/// # let der = include_bytes!("../../../examples/data/certificate.der");
/// let anchor = TrustAnchor::from_der(der)?;
/// assert_eq!(anchor.kind(), AnchorKind::Certificate);
/// assert_eq!(anchor.element(), der);
/// # Ok::<(), x509_rattle::Error>(())
/// ```
#[derive(Clone, Copy)]
pub struct TrustAnchor<'a> {
    der: &'a [u8],
    kind: AnchorKind,
    view: ffi::Anchor,
}

impl<'a> TrustAnchor<'a> {
    /// The trust anchor (TrustAnchorChoice) that the bytes are, under the rules of RFC 5280.
    ///
    /// # Errors
    /// [`Error::Malformed`] or [`Error::Overlength`] where they are none, or bytes stand behind it; [`Error::Memory`].
    pub fn from_der(der: &'a [u8]) -> Result<TrustAnchor<'a>, Error> {
        let view = ffi::ANCHOR.of(der)?;
        let spans = [
            view.element,
            view.name,
            view.subject_public_key_info,
            view.extensions,
            view.key_identifier,
            view.title,
            view.title_language,
            view.controls,
        ];
        for span in spans {
            span.of(der)?;
        }
        let kind = match view.kind {
            ffi::ANCHOR_CERTIFICATE => AnchorKind::Certificate,
            ffi::ANCHOR_TBS_CERTIFICATE => AnchorKind::TbsCertificate,
            ffi::ANCHOR_INFO => AnchorKind::Info,
            _ => return Err(Error::Unexpected),
        };
        Ok(TrustAnchor { der, kind, view })
    }

    /// A part, which [`from_der`](TrustAnchor::from_der) has found within the bytes.
    fn part(&self, span: ffi::Span) -> &'a [u8] {
        span.of(self.der).unwrap_or_default()
    }

    /// A part that may be left out.
    fn optional(&self, span: ffi::Span) -> Option<&'a [u8]> {
        span.part(self.der).ok().flatten()
    }

    /// Its DER.
    pub fn as_der(&self) -> &'a [u8] {
        self.der
    }

    /// What it is.
    pub fn kind(&self) -> AnchorKind {
        self.kind
    }

    /// The DER of that, within its tag.
    pub fn element(&self) -> &'a [u8] {
        self.part(self.view.element)
    }

    /// Its name: that of the subject, or that in the constraints on paths.
    pub fn name(&self) -> Option<NameRef<'a>> {
        self.optional(self.view.name).map(NameRef::found)
    }

    /// The key and its algorithm: a whole SubjectPublicKeyInfo.
    pub fn subject_public_key_info(&self) -> &'a [u8] {
        self.part(self.view.subject_public_key_info)
    }

    /// Its extensions, in order.
    pub fn extensions(&self) -> Extensions<'a> {
        Extensions::new(self.part(self.view.extensions))
    }

    /// Of a TrustAnchorInfo the octets of its key identifier.
    pub fn key_identifier(&self) -> Option<&'a [u8]> {
        self.optional(self.view.key_identifier)
    }

    /// Of a TrustAnchorInfo its title.
    pub fn title(&self) -> Option<&'a str> {
        std::str::from_utf8(self.optional(self.view.title)?).ok()
    }

    /// Of a TrustAnchorInfo the language of its title.
    pub fn title_language(&self) -> Option<&'a str> {
        std::str::from_utf8(self.optional(self.view.title_language)?).ok()
    }

    /// Of a TrustAnchorInfo the constraints on paths: a whole CertPathControls, for [`PathControls::from_der`](crate::PathControls::from_der).
    pub fn path_controls(&self) -> Option<&'a [u8]> {
        self.optional(self.view.controls)
    }

    /// All that it has, as lines for people: each is a label and a text, and no text of the anchor can forge a line or turn its order round.
    ///
    /// # Errors
    /// [`Error::Memory`].
    pub fn to_text(&self) -> Result<String, Error> {
        ffi::ANCHOR_TEXT.text_of(self.der)
    }

    /// The lines of [`to_text`](TrustAnchor::to_text) as JSON (RFC 8259): an array of objects, each with its `depth`, its `label` and its `text`.
    ///
    /// # Errors
    /// [`Error::Memory`].
    pub fn to_json(&self) -> Result<String, Error> {
        ffi::ANCHOR_JSON.text_of(self.der)
    }

    /// The rules that it breaks beyond the grammar, those of RFC 5914 that `docs/RULES.md` of the sources lists, and of a Certificate or a TBSCertificate those
    /// on certificates, in their order; none where it breaks none.
    ///
    /// # Errors
    /// [`Error::Memory`].
    pub fn lint(&self) -> Result<Vec<Finding>, Error> {
        lint::findings(&ffi::ANCHOR_LINT, self.der)
    }
}

impl PartialEq for TrustAnchor<'_> {
    fn eq(&self, other: &Self) -> bool {
        self.der == other.der
    }
}

impl Eq for TrustAnchor<'_> {}

impl fmt::Debug for TrustAnchor<'_> {
    fn fmt(&self, f: &mut fmt::Formatter<'_>) -> fmt::Result {
        f.debug_struct("TrustAnchor")
            .field("kind", &self.kind)
            .field("name", &self.name())
            .finish_non_exhaustive()
    }
}
