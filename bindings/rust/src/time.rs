//! Moments, by whole seconds from 1970 to 9999.
use crate::error::Error;
use crate::ffi;
use crate::text::{place_in_time, placed};
use std::time::{Duration, SystemTime, UNIX_EPOCH};

/// The moment that is some seconds after 1970-01-01T00:00:00Z.
pub(crate) fn moment(seconds: u64) -> Result<SystemTime, Error> {
    UNIX_EPOCH
        .checked_add(Duration::from_secs(seconds))
        .ok_or(Error::Unexpected)
}

/// The whole seconds of a moment.
pub(crate) fn seconds(moment: SystemTime) -> Result<u64, Error> {
    let since = moment
        .duration_since(UNIX_EPOCH)
        .map_err(|_| Error::Value)?;
    Ok(since.as_secs())
}

/// The text of a moment, as `2026-01-02T03:04:05Z`. Parts of a second are left out.
///
/// ```
/// use std::time::{Duration, UNIX_EPOCH};
///
/// let moment = UNIX_EPOCH + Duration::from_secs(1_767_323_045);
/// assert_eq!(x509_rattle::time_text(moment)?, "2026-01-02T03:04:05Z");
/// # Ok::<(), x509_rattle::Error>(())
/// ```
///
/// # Errors
/// [`Error::Value`] before 1970-01-01T00:00:00Z and after 9999-12-31T23:59:59Z; [`Error::Memory`].
pub fn time_text(moment: SystemTime) -> Result<String, Error> {
    ffi::time_text(seconds(moment)?)
}

/// The moment with a text, as [`time_text`] writes it.
///
/// ```
/// use std::time::{Duration, UNIX_EPOCH};
/// use x509_rattle::{time_from_text, Error};
///
/// assert_eq!(time_from_text("2026-01-02T03:04:05Z")?, UNIX_EPOCH + Duration::from_secs(1_767_323_045));
/// assert_eq!(time_from_text("2026-02-30T03:04:05Z"), Err(Error::Text { place: 8 }));
/// # Ok::<(), Error>(())
/// ```
///
/// # Errors
/// [`Error::Text`] where it is that of no moment from 1970 to 9999; [`Error::Memory`].
pub fn time_from_text(text: &str) -> Result<SystemTime, Error> {
    let found = ffi::TIME_FROM_TEXT.of(text.as_bytes());
    moment(placed(found, || place_in_time(text))?)
}
