//! What qualifiers of policies say (RFC 5280 4.2.1.4).
use super::PolicyQualifierInfo;
use crate::elements::{numbers, only};
use crate::error::Error;
use crate::ffi::{self, UserNoticeView};
use crate::integer::Integer;
use crate::oid::policy;
use crate::writing::IA5_STRING;

/// Texts of an organization, by their numbers (RFC 5280 4.2.1.4).
#[derive(Clone, Debug, PartialEq, Eq, Hash)]
pub struct NoticeReference<'a> {
    /// The organization.
    pub organization: String,

    /// The numbers of its texts.
    pub notice_numbers: Vec<Integer<'a>>,
}

/// What is shown to who relies on a certificate (RFC 5280 4.2.1.4).
#[derive(Clone, Debug, PartialEq, Eq, Hash)]
pub struct UserNotice<'a> {
    /// Texts that stand elsewhere.
    pub notice_ref: Option<NoticeReference<'a>>,

    /// A text.
    pub explicit_text: Option<String>,
}

impl<'a> PolicyQualifierInfo<'a> {
    /// Where a practice statement is found; none of a qualifier of another type.
    ///
    /// ```
    /// use x509_rattle::extension::PolicyQualifierInfo;
    /// use x509_rattle::oid::policy;
    ///
    /// let qualifier = PolicyQualifierInfo { policy_qualifier_id: policy::CPS_URI, qualifier: Some(b"\x16\x03a:b") };
    /// assert_eq!(qualifier.cps_uri(), Ok(Some("a:b")));
    /// assert_eq!(qualifier.user_notice(), Ok(None));
    /// ```
    ///
    /// # Errors
    /// [`Error::Malformed`] where it isn't an IA5String; [`Error::Memory`].
    pub fn cps_uri(&self) -> Result<Option<&'a str>, Error> {
        if self.policy_qualifier_id != policy::CPS_URI {
            return Ok(None);
        }
        let value = self.qualifier.ok_or(Error::Malformed)?;
        ascii(only(value, IA5_STRING)?).map(Some)
    }

    /// The notice to the user; none of a qualifier of another type.
    ///
    /// # Errors
    /// [`Error::Malformed`] where it isn't a UserNotice, or where a text has no characters of its type; [`Error::Memory`].
    pub fn user_notice(&self) -> Result<Option<UserNotice<'a>>, Error> {
        if self.policy_qualifier_id != policy::USER_NOTICE {
            return Ok(None);
        }
        let value = self.qualifier.ok_or(Error::Malformed)?;
        let view = ffi::USER_NOTICE.of(value)?;
        let text = view.explicit_text.part(value)?;
        Ok(Some(UserNotice {
            notice_ref: reference(view, value)?,
            explicit_text: text.map(|it| ffi::STRING_TEXT.text_of(it)).transpose()?,
        }))
    }
}

/// The reference of a notice, where it has one.
fn reference(view: UserNoticeView, notice: &[u8]) -> Result<Option<NoticeReference<'_>>, Error> {
    let organization = match view.organization.part(notice)? {
        Some(organization) => organization,
        None => return Ok(None),
    };
    let notice_numbers = view.notice_numbers.part(notice)?.map(numbers).transpose()?;
    Ok(Some(NoticeReference {
        organization: ffi::STRING_TEXT.text_of(organization)?,
        notice_numbers: notice_numbers.unwrap_or_default(),
    }))
}

fn ascii(content: &[u8]) -> Result<&str, Error> {
    let text = std::str::from_utf8(content).ok();
    text.filter(|it| it.is_ascii()).ok_or(Error::Malformed)
}
