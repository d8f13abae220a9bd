//! The calls of `include/x509.h`, and safe ways to make them. All that is unsafe stands here and in `ffi/build.rs`.
//!
//! What the header declares is in `ffi/header.rs`, which `tools/build/make_bindings.py` makes.
use crate::error::Error;
use std::fmt;
use std::mem::size_of;
use std::os::raw::c_int;
use std::ptr;

/// Asks a call, to which each slice in brackets is lent by its place and its length, and each value in parentheses goes as it is.
macro_rules! lent {
    ($call:ident: $($([$slice:expr])? $(($value:expr))?),*) => {
        $call($($($slice.as_ptr(), $slice.len(),)? $($value,)?)*)
    };
}

/// What a call writes, asked as of `lent`. In front stands what X509_FAILED means, where the call lists it.
macro_rules! filled {
    ($call:ident: $($given:tt),*) => {
        filled!(Error::Unexpected, $call: $($given),*)
    };
    ($failed:expr, $call:ident: $($given:tt),*) => {
        fill($failed, |out, room, written| {
            // SAFETY: the header lets the call read the slices and structs, which are lent for it, take any numbers, and write to `out[0..room)` and
            // `written`, which `wanted` and `fill` own.
            unsafe { lent!($call: $($given),*, (out), (room), (written)) }
        })
    };
}

pub(crate) mod build;
mod header;

pub(crate) use header::*;

impl Span {
    /// The part of the bytes that a call filled this in for.
    pub(crate) fn of(self, data: &[u8]) -> Result<&[u8], Error> {
        let end = self.place.checked_add(self.len).ok_or(Error::Unexpected)?;
        data.get(self.place..end).ok_or(Error::Unexpected)
    }

    /// The part, where both numbers aren't 0.
    pub(crate) fn part(self, data: &[u8]) -> Result<Option<&[u8]>, Error> {
        if self == Span::default() {
            return Ok(None);
        }
        self.of(data).map(Some)
    }
}

/// Bytes go in as a pointer and a length.
type ValidateCall = unsafe extern "C" fn(
    *const u8,
    usize,
    *const u8,
    usize,
    *const usize,
    usize,
    *const u8,
    usize,
    *const u8,
    usize,
    *const PathSettings,
    usize,
    *mut u8,
    usize,
    *mut PathAnswer,
    *mut PathCertificate,
    usize,
) -> c_int;
type ViewCall<T> = unsafe extern "C" fn(*const u8, usize, *mut T) -> c_int;
type FindCall<T> = unsafe extern "C" fn(*const u8, usize, *const u8, usize, *mut T) -> c_int;
type FillCall = unsafe extern "C" fn(*const u8, usize, *mut u8, usize, *mut usize) -> c_int;
type NextCall<T> = unsafe extern "C" fn(*const u8, usize, *mut usize, *mut T) -> c_int;
type NextUnderCall<T> = unsafe extern "C" fn(u32, *const u8, usize, *mut usize, *mut T) -> c_int;

/// What a status means; X509_FAILED means something else of each call that answers it.
fn error(status: c_int, failed: Error) -> Error {
    match status {
        MEMORY => Error::Memory,
        OVERLENGTH => Error::Overlength,
        MALFORMED => Error::Malformed,
        FAILED => failed,
        SET_DUPLICATE => Error::SetDuplicate,
        VALUE => Error::Value,
        ABSENT => Error::Absent,
        REPEATED => Error::Repeated,
        // of a search alone, where it is no error
        LIMIT => Error::Unexpected,
        _ => Error::Unexpected,
    }
}

/// The answer of a call that doesn't list X509_FAILED.
fn accepted<T>(status: c_int, found: T) -> Result<T, Error> {
    accepted_or(Error::Unexpected, status, found)
}

/// The answer of a call whose X509_FAILED means that.
fn accepted_or<T>(failed: Error, status: c_int, found: T) -> Result<T, Error> {
    match status {
        OK => Ok(found),
        status => Err(error(status, failed)),
    }
}

/// A call of such a type, and what its X509_FAILED means. Only this module makes one.
pub(crate) struct Call<C> {
    call: C,
    failed: Error,
}

impl<C: Copy> Call<C> {
    const fn new(call: C) -> Call<C> {
        Call::or(Error::Unexpected, call)
    }

    /// One whose X509_FAILED means that.
    const fn or(failed: Error, call: C) -> Call<C> {
        Call { call, failed }
    }
}

/// A call that fills in what it says of bytes.
pub(crate) type View<T> = Call<ViewCall<T>>;

impl<T: Default> View<T> {
    pub(crate) fn of(&self, data: &[u8]) -> Result<T, Error> {
        let mut found = T::default();
        // SAFETY: the header lets the call read `data`, which is lent for it, and fill in `found`, which is of the struct that it takes.
        let status = unsafe { (self.call)(data.as_ptr(), data.len(), &mut found) };
        accepted_or(self.failed, status, found)
    }
}

/// A call that writes bytes of bytes.
pub(crate) type Fill = Call<FillCall>;

impl Fill {
    /// Refused as [`of`](Fill::of) is.
    pub(crate) fn check(&self, data: &[u8]) -> Result<(), Error> {
        wanted(self.failed, &self.over(data)).map(|_| ())
    }

    pub(crate) fn of(&self, data: &[u8]) -> Result<Vec<u8>, Error> {
        fill(self.failed, self.over(data))
    }

    /// The text that the call writes, which is UTF-8.
    pub(crate) fn text_of(&self, data: &[u8]) -> Result<String, Error> {
        String::from_utf8(self.of(data)?).map_err(|_| Error::Unexpected)
    }

    /// What the call writes to the front of the buffer. It takes no memory here.
    pub(crate) fn within<'a>(&self, data: &[u8], out: &'a mut [u8]) -> Result<&'a [u8], Error> {
        let mut written = 0;
        let status = self.over(data)(out.as_mut_ptr(), out.len(), &mut written);
        accepted_or(self.failed, status, ())?;
        out.get(..written).ok_or(Error::Unexpected)
    }

    fn over<'a>(&'a self, data: &'a [u8]) -> impl Fn(*mut u8, usize, *mut usize) -> c_int + 'a {
        |out, room, written| {
            // SAFETY: the header lets the call read `data`, which is lent for it, and write to `out[0..room)` and `written`, which `within`,
            // `wanted` and `fill` own or are lent.
            unsafe { (self.call)(data.as_ptr(), data.len(), out, room, written) }
        }
    }
}

/// How many bytes a call writes that is given a room, its length, and where to say how much it wrote.
fn wanted(
    failed: Error,
    write: &impl Fn(*mut u8, usize, *mut usize) -> c_int,
) -> Result<usize, Error> {
    let mut written = 0;
    match write(ptr::null_mut(), 0, &mut written) {
        OK | ROOM => Ok(written),
        status => Err(error(status, failed)),
    }
}

/// What such a call writes whose X509_FAILED means that.
fn fill(
    failed: Error,
    write: impl Fn(*mut u8, usize, *mut usize) -> c_int,
) -> Result<Vec<u8>, Error> {
    let mut written = wanted(failed, &write)?;
    let mut out = Vec::new();
    out.try_reserve_exact(written).map_err(|_| Error::Memory)?;
    out.resize(written, 0);
    let status = write(out.as_mut_ptr(), out.len(), &mut written);
    out.truncate(written);
    accepted_or(failed, status, out)
}

enum Next<T> {
    Plain(NextCall<T>),
    Under(u32, NextUnderCall<T>),
}

/// A call that walks over the members of a list. Only this module makes one.
pub(crate) struct Walk<T: 'static>(Next<T>);

impl<T: Default> Walk<T> {
    fn next(&self, data: &[u8], at: &mut usize) -> Result<Option<T>, Error> {
        let mut found = T::default();
        let status = match self.0 {
            // SAFETY: the header lets the call read `data`, which is lent for it, read and write `at`, of any value, and fill in `found`, which is
            // of the struct that it takes.
            Next::Plain(call) => unsafe { call(data.as_ptr(), data.len(), at, &mut found) },
            // SAFETY: the same, and any number may go in.
            Next::Under(number, call) => unsafe {
                call(number, data.as_ptr(), data.len(), at, &mut found)
            },
        };
        match status {
            ABSENT => Ok(None),
            status => accepted(status, Some(found)),
        }
    }

    pub(crate) const fn over<'a>(&'static self, data: &'a [u8]) -> Members<'a, T> {
        Members {
            walk: self,
            data,
            at: 0,
            is_over: false,
        }
    }
}

/// The members of a list. After one that can't be read nothing comes.
pub(crate) struct Members<'a, T: 'static> {
    walk: &'static Walk<T>,
    pub(crate) data: &'a [u8],
    at: usize,
    is_over: bool,
}

impl<T> Members<'_, T> {
    /// Without any members, whatever the bytes.
    pub(crate) fn ended(mut self) -> Self {
        self.is_over = true;
        self
    }
}

impl<T> Clone for Members<'_, T> {
    fn clone(&self) -> Self {
        Members { ..*self }
    }
}

impl<T> fmt::Debug for Members<'_, T> {
    fn fmt(&self, f: &mut fmt::Formatter<'_>) -> fmt::Result {
        f.debug_struct("Members")
            .field("at", &self.at)
            .field("is_over", &self.is_over)
            .finish_non_exhaustive()
    }
}

impl<T: Default> Iterator for Members<'_, T> {
    type Item = Result<T, Error>;

    fn next(&mut self) -> Option<Self::Item> {
        if self.is_over {
            return None;
        }
        let last = self.at;
        let found = match self.walk.next(self.data, &mut self.at) {
            // the header says that each step moves on; a list without an end is none
            Ok(Some(_)) if self.at <= last => Err(Error::Unexpected),
            found => found,
        };
        self.is_over = !matches!(found, Ok(Some(_)));
        found.transpose()
    }
}

/// The iterator of a struct round members, each read by the `found` of its type.
macro_rules! iterator {
    ($members:ident, $member:ident) => {
        impl<'a> Iterator for $members<'a> {
            type Item = Result<$member<'a>, $crate::Error>;

            fn next(&mut self) -> Option<Self::Item> {
                let found = self.0.next()?;
                Some(found.and_then(|view| $member::found(&view, self.0.data)))
            }
        }
    };
}

pub(crate) use iterator;

/// Of a text that is none; where it stops to be one its caller says.
pub(crate) const NO_TEXT: Error = Error::Text { place: 0 };

pub(crate) const CERTIFICATE: View<Certificate> = View::new(x509_certificate_view);
pub(crate) const CERTIFICATE_SIGNATURE: View<Signature> = View::new(x509_certificate_signature);
pub(crate) const SIGNED_SLICE: View<Span> = View::new(x509_signed_slice);
pub(crate) const SERIAL_NUMBER: View<Span> = View::new(x509_serial_number);
pub(crate) const CRL: View<Crl> = View::new(x509_crl_view);
pub(crate) const MAY_SIGN_CRLS: View<u32> = View::new(x509_may_sign_crls);
pub(crate) const REQUEST: View<Request> = View::new(x509_request_view);
pub(crate) const REQUEST_EXTENSIONS: View<Span> =
    View::or(Error::NotOneValue, x509_request_extensions);
pub(crate) const TIME_FROM_TEXT: View<u64> = View::or(NO_TEXT, x509_time_from_text);
pub(crate) const KEY: View<Key> = View::new(x509_key_view);
pub(crate) const RSA_KEY: View<RsaKey> = View::new(x509_rsa_key_view);
pub(crate) const ALGORITHM: View<Algorithm> = View::new(x509_algorithm_view);
pub(crate) const ANCHOR: View<Anchor> = View::new(x509_anchor_view);
pub(crate) const PATH_CONTROLS: View<PathControls> = View::new(x509_path_controls_view);
pub(crate) const TIMESTAMP: View<Timestamp> = View::new(x509_timestamp_view);
pub(crate) const LOG_LEAF: View<LogLeaf> = View::new(x509_log_leaf_view);
pub(crate) const LOG_PRECERTIFICATE: View<LogPrecertificate> =
    View::new(x509_log_precertificate_view);
pub(crate) const KEY_USAGE: View<u32> = View::new(x509_key_usage);
pub(crate) const BASIC_CONSTRAINTS: View<BasicConstraintsView> = View::new(x509_basic_constraints);
pub(crate) const SUBJECT_KEY_IDENTIFIER: View<Span> = View::new(x509_subject_key_identifier);
pub(crate) const AUTHORITY_KEY_IDENTIFIER: View<AuthorityKeyIdentifierView> =
    View::new(x509_authority_key_identifier);
pub(crate) const USER_NOTICE: View<UserNoticeView> = View::new(x509_user_notice);
pub(crate) const PRIVATE_KEY_USAGE_PERIOD: View<PrivateKeyUsagePeriodView> =
    View::new(x509_private_key_usage_period);
pub(crate) const INVALIDITY_DATE: View<u64> = View::new(x509_invalidity_date);
pub(crate) const POLICY_CONSTRAINTS: View<PolicyConstraintsView> =
    View::new(x509_policy_constraints);
pub(crate) const INHIBIT_ANY_POLICY: View<u32> = View::new(x509_inhibit_any_policy);
pub(crate) const ISSUING_DISTRIBUTION_POINT: View<IssuingDistributionPointView> =
    View::new(x509_issuing_distribution_point);
pub(crate) const CRL_NUMBER: View<Span> = View::new(x509_crl_number);
pub(crate) const BASE_CRL_NUMBER: View<Span> = View::new(x509_base_crl_number);
pub(crate) const CRL_REASON: View<u32> = View::new(x509_crl_reason);
pub(crate) const NAME_CONSTRAINTS: View<NameConstraintsView> = View::new(x509_name_constraints);

pub(crate) const CERTIFICATE_REENCODE: Fill = Fill::new(x509_certificate_reencode);
pub(crate) const NAME_TEXT: Fill = Fill::new(x509_name_text);
pub(crate) const NAME_FROM_TEXT: Fill = Fill::or(NO_TEXT, x509_name_from_text);
pub(crate) const STRING_TEXT: Fill = Fill::new(x509_string_text);
pub(crate) const OID_TEXT: Fill = Fill::new(x509_oid_text);
pub(crate) const OID_FROM_TEXT: Fill = Fill::or(NO_TEXT, x509_oid_from_text);
pub(crate) const SERIAL_TEXT: Fill = Fill::new(x509_serial_text);
pub(crate) const SERIAL_DECIMAL: Fill = Fill::new(x509_serial_decimal);
pub(crate) const CERTIFICATE_TEXT: Fill = Fill::new(x509_certificate_text);
pub(crate) const CERTIFICATE_JSON: Fill = Fill::new(x509_certificate_json);
pub(crate) const CRL_TEXT: Fill = Fill::new(x509_crl_text);
pub(crate) const CRL_JSON: Fill = Fill::new(x509_crl_json);
pub(crate) const REQUEST_TEXT: Fill = Fill::new(x509_request_text);
pub(crate) const REQUEST_JSON: Fill = Fill::new(x509_request_json);
pub(crate) const ANCHOR_TEXT: Fill = Fill::new(x509_anchor_text);
pub(crate) const ANCHOR_JSON: Fill = Fill::new(x509_anchor_json);
pub(crate) const CERTIFICATE_LINT: Fill = Fill::new(x509_certificate_lint);
pub(crate) const CRL_LINT: Fill = Fill::new(x509_crl_lint);
pub(crate) const REQUEST_LINT: Fill = Fill::new(x509_request_lint);
pub(crate) const ANCHOR_LINT: Fill = Fill::new(x509_anchor_lint);
pub(crate) const MERKLE_LEAF_HASH: Fill = Fill::new(x509_merkle_leaf_hash);
pub(crate) const LOGGED_PART: Fill = Fill::new(x509_logged_part);
pub(crate) const LOGGED_PRECERTIFICATE: Fill = Fill::new(x509_logged_precertificate);

pub(crate) static EXTENSIONS: Walk<ExtensionEntry> = Walk(Next::Plain(x509_extensions_next));
pub(crate) static GENERAL_NAMES: Walk<GeneralName> = Walk(Next::Plain(x509_general_names_next));
pub(crate) static GENERAL_NAMES_UNDER_0: Walk<GeneralName> =
    Walk(Next::Under(0, x509_general_names_under_next));
pub(crate) static GENERAL_NAMES_UNDER_1: Walk<GeneralName> =
    Walk(Next::Under(1, x509_general_names_under_next));
pub(crate) static GENERAL_NAMES_UNDER_2: Walk<GeneralName> =
    Walk(Next::Under(2, x509_general_names_under_next));
pub(crate) static EXTENDED_KEY_USAGE: Walk<Span> = Walk(Next::Plain(x509_extended_key_usage_next));
pub(crate) static ACCESS: Walk<Access> = Walk(Next::Plain(x509_access_next));
pub(crate) static CERTIFICATE_POLICIES: Walk<Policy> =
    Walk(Next::Plain(x509_certificate_policies_next));
pub(crate) static POLICIES_UNDER_1: Walk<Policy> =
    Walk(Next::Under(1, x509_certificate_policies_under_next));
pub(crate) static POLICY_QUALIFIERS: Walk<PolicyQualifier> =
    Walk(Next::Plain(x509_policy_qualifiers_next));
pub(crate) static NUMBERS: Walk<Span> = Walk(Next::Plain(x509_numbers_next));
pub(crate) static POLICY_MAPPINGS: Walk<PolicyMapping> =
    Walk(Next::Plain(x509_policy_mappings_next));
pub(crate) static DISTRIBUTION_POINTS: Walk<DistributionPoint> =
    Walk(Next::Plain(x509_distribution_points_next));
pub(crate) static SUBTREES_UNDER_0: Walk<Subtree> = Walk(Next::Under(0, x509_subtrees_under_next));
pub(crate) static SUBTREES_UNDER_1: Walk<Subtree> = Walk(Next::Under(1, x509_subtrees_under_next));
pub(crate) static CRL_ENTRIES: Walk<CrlEntry> = Walk(Next::Plain(x509_crl_entry_next));
pub(crate) static REQUEST_ATTRIBUTES: Walk<RequestAttribute> =
    Walk(Next::Plain(x509_request_attribute_next));
pub(crate) static DIRECTORY_ATTRIBUTES: Walk<RequestAttribute> =
    Walk(Next::Plain(x509_subject_directory_attributes_next));
pub(crate) static ATTRIBUTE_VALUES: Walk<Element> = Walk(Next::Plain(x509_attribute_value_next));
pub(crate) static FINDINGS: Walk<Finding> = Walk(Next::Plain(x509_finding_next));
pub(crate) static TIMESTAMPS: Walk<Span> = Walk(Next::Plain(x509_timestamp_next));
pub(crate) static LOG_CHAIN: Walk<Span> = Walk(Next::Plain(x509_log_chain_next));
pub(crate) static NAME: Walk<Span> = Walk(Next::Plain(x509_name_next));
pub(crate) static RELATIVE_NAME: Walk<Attribute> = Walk(Next::Plain(x509_relative_name_next));
pub(crate) static RELATIVE_NAME_UNDER_1: Walk<Attribute> =
    Walk(Next::Under(1, x509_relative_name_under_next));

/// Whether an audit path leads from the hash of a leaf to a root.
pub(crate) fn merkle_inclusion(
    leaf_hash: &[u8],
    index: u64,
    size: u64,
    path: &[u8],
    root: &[u8],
) -> Result<bool, Error> {
    // SAFETY: the header lets the call read the slices, which are lent for it, and take any numbers.
    let status =
        unsafe { lent!(x509_merkle_inclusion: [leaf_hash], (index), (size), [path], [root]) };
    verified(status)
}

/// Whether a consistency proof leads to both roots.
pub(crate) fn merkle_consistency(
    old_size: u64,
    new_size: u64,
    old_root: &[u8],
    new_root: &[u8],
    proof: &[u8],
) -> Result<bool, Error> {
    // SAFETY: as above.
    let status = unsafe {
        lent!(x509_merkle_consistency: (old_size), (new_size), [old_root], [new_root], [proof])
    };
    verified(status)
}

/// What a call says that verifies something, whose X509_FAILED means that it doesn't hold.
fn verified(status: c_int) -> Result<bool, Error> {
    match status {
        FAILED => Ok(false),
        status => accepted(status, true),
    }
}

/// What the signature of a timestamp is over that stands in a certificate.
pub(crate) fn timestamp_signed_data(
    timestamp: &[u8],
    certificate: &[u8],
    issuer: &[u8],
) -> Result<Vec<u8>, Error> {
    filled!(x509_timestamp_signed_data: [timestamp], [certificate], [issuer])
}

/// What the signature of a timestamp is over that came beside a certificate.
pub(crate) fn timestamp_signed_data_beside(
    timestamp: &[u8],
    certificate: &[u8],
) -> Result<Vec<u8>, Error> {
    filled!(x509_timestamp_signed_data_beside: [timestamp], [certificate])
}

/// The TBSCertificate of a precertificate that a precertificate signing certificate signed.
pub(crate) fn logged_precertificate_signed_by(
    precertificate: &[u8],
    signing: &[u8],
) -> Result<Vec<u8>, Error> {
    filled!(x509_logged_precertificate_signed_by: [precertificate], [signing])
}

/// What the signature of a tree head is over.
pub(crate) fn tree_head_signed_data(
    milliseconds: u64,
    tree_size: u64,
    root_hash: &[u8],
) -> Result<Vec<u8>, Error> {
    filled!(x509_tree_head_signed_data: (milliseconds), (tree_size), [root_hash])
}

pub(crate) fn reencode(kind: &str, profile: u32, data: &[u8]) -> Result<Vec<u8>, Error> {
    filled!(Error::UnknownType, x509_reencode: [kind], (profile), [data])
}

pub(crate) fn working_key(above: &[u8], key: &[u8]) -> Result<Vec<u8>, Error> {
    filled!(x509_working_key: [above], [key])
}

pub(crate) fn time_text(moment: u64) -> Result<String, Error> {
    String::from_utf8(filled!(x509_time_text: (moment))?).map_err(|_| Error::Unexpected)
}

/// The version of the library that is linked.
pub(crate) fn version() -> u32 {
    // SAFETY: the call takes nothing and touches nothing.
    unsafe { x509_version() }
}

/// A call that finds what bytes hold under other bytes: the content octets of an OID, or the DER of a serial number.
pub(crate) type Find<T> = Call<FindCall<T>>;

impl<T: Default> Find<T> {
    pub(crate) fn of(&self, data: &[u8], sought: &[u8]) -> Result<Option<T>, Error> {
        let mut found = T::default();
        let call = self.call;
        // SAFETY: the header lets the call read both slices, which are lent for it, and fill in `found`, which is of the struct that it takes.
        let status = unsafe { lent!(call: [data], [sought], (&mut found)) };
        match status {
            ABSENT => Ok(None),
            status => accepted_or(self.failed, status, Some(found)),
        }
    }
}

pub(crate) const CERTIFICATE_EXTENSION: Find<Extension> = Find::new(x509_certificate_extension);
pub(crate) const CRL_LOOKUP: Find<Revocation> = Find::or(Error::Repeated, x509_crl_lookup);
pub(crate) const CRL_ENTRY_FIND: Find<CrlEntry> = Find::new(x509_crl_entry_find);
pub(crate) const NAME_FIND: Find<Attribute> = Find::new(x509_name_find);
pub(crate) const REQUEST_ATTRIBUTE: Find<RequestAttribute> = Find::new(x509_request_attribute_find);

/// The next entry of a list of entries, and where the names of its issuer stand: both numbers are 0 before the first, and until an entry names one.
pub(crate) fn crl_issued_next(
    data: &[u8],
    at: &mut usize,
    issuer: &mut Span,
) -> Result<Option<CrlEntry>, Error> {
    let mut found = CrlEntry::default();
    // SAFETY: the header lets the call read `data`, which is lent for it, read and write `at` and `issuer`, of any value, and fill in `found`.
    let status = unsafe { x509_crl_issued_next(data.as_ptr(), data.len(), at, issuer, &mut found) };
    match status {
        ABSENT => Ok(None),
        status => accepted(status, Some(found)),
    }
}

/// The index of a list that has so many entries.
pub(crate) fn crl_index(entries: &[u8], count: usize) -> Result<Vec<u32>, Error> {
    let mut index = Vec::new();
    index.try_reserve_exact(count).map_err(|_| Error::Memory)?;
    index.resize(count, 0);
    let mut written = 0;
    // SAFETY: the header lets the call read `entries`, which is lent for it, and write to `index[0..room)`, which `index` owns, and to `written`.
    let status = unsafe {
        x509_crl_index(
            entries.as_ptr(),
            entries.len(),
            index.as_mut_ptr(),
            index.len(),
            &mut written,
        )
    };
    index.truncate(written);
    accepted(status, index)
}

/// The entry of a list that has the serial number with this DER, by an index of any numbers.
pub(crate) fn crl_index_find(
    entries: &[u8],
    index: &[u32],
    serial_number: &[u8],
) -> Result<Option<CrlEntry>, Error> {
    let mut found = CrlEntry::default();
    // SAFETY: the header lets the call read the three slices, which are lent for it, and fill in `found`.
    let status =
        unsafe { lent!(x509_crl_index_find: [entries], [index], [serial_number], (&mut found)) };
    match status {
        ABSENT => Ok(None),
        status => accepted(status, Some(found)),
    }
}

/// Whether two names match.
pub(crate) fn names_match(a: &[u8], b: &[u8]) -> Result<bool, Error> {
    let mut matches = 0;
    // SAFETY: the header lets the call read both slices, which are lent for it, and fill in `matches`.
    let status = unsafe { lent!(x509_names_match: [a], [b], (&mut matches)) };
    accepted(status, matches == 1)
}

const SERVER_NAME: View<ServerName> = View::new(x509_server_name_view);
const EMAIL_ADDRESS: View<EmailAddress> = View::new(x509_email_address_view);

/// What the text of a server's name is.
pub(crate) fn server_name(text: &[u8]) -> Result<ServerName, Error> {
    match SERVER_NAME.of(text) {
        Err(Error::Value) => Err(Error::ServerName),
        other => other,
    }
}

/// Where the parts of an address of e-mail stand.
pub(crate) fn email_address(text: &[u8]) -> Result<EmailAddress, Error> {
    match EMAIL_ADDRESS.of(text) {
        Err(Error::Value) => Err(Error::EmailAddress),
        other => other,
    }
}

/// A call that says whether a certificate is that of a peer, whose name is a text.
pub(crate) type Matches = Call<FindCall<u32>>;

impl Matches {
    pub(crate) fn are(&self, data: &[u8], name: &str) -> Result<bool, Error> {
        let mut matches = 0;
        let call = self.call;
        // SAFETY: the header lets the call read both slices, which are lent for it, and fill in `matches`.
        let status = unsafe { lent!(call: [data], [name], (&mut matches)) };
        accepted(status, matches == 1)
    }
}

pub(crate) const MATCHES_NAME: Matches = Matches::new(x509_certificate_matches_name);
pub(crate) const MATCHES_EMAIL: Matches = Matches::new(x509_certificate_matches_email);

/// The first fault of a path, but those of signatures.
pub(crate) fn path_check(
    anchor: &[u8],
    path: &[&[u8]],
    moment: u64,
) -> Result<Option<PathFault>, Error> {
    let joined = path.concat();
    let lens: Vec<usize> = path.iter().map(|data| data.len()).collect();
    let mut fault = PathFault::default();
    // SAFETY: the header lets the call read the three slices, which are lent for it, `lens` of as many numbers as it is told, and fill in `fault`.
    let status =
        unsafe { lent!(x509_path_check: [anchor], [joined], [lens], (moment), (&mut fault)) };
    match status {
        FAULT => Ok(Some(fault)),
        status => accepted(status, None),
    }
}

/// What a path is to be valid under.
#[derive(Clone, Copy)]
pub(crate) enum Trusted<'a> {
    Certificate(&'a [u8]),
    Anchor(&'a [u8]),
    NameAndKey(&'a [u8], &'a [u8]),
}

/// What is filled in of a path.
struct Filled {
    policies: Vec<u8>,
    answer: PathAnswer,
    certificates: Vec<PathCertificate>,
}

/// A path with what is asked of it.
struct Question<'a> {
    trusted: Trusted<'a>,
    joined: Vec<u8>,
    lens: Vec<usize>,
    name_constraints: &'a [u8],
    policies: &'a [u8],
    settings: PathSettings,
}

impl Question<'_> {
    /// The status of a call under a certificate or another trust anchor.
    fn call(&self, call: ValidateCall, anchor: &[u8], to: &mut Filled) -> c_int {
        // SAFETY: the header lets the call read the slices, which are lent for it, `lens` of as many numbers as it is told and `settings` of the size that it
        // is told, write into `policies` and `certificates` of the sizes that it is told, and fill in `answer`.
        unsafe {
            lent!(call: [anchor], [self.joined], [self.lens], [self.name_constraints], [self.policies], (&self.settings),
                (size_of::<PathSettings>()), (to.policies.as_mut_ptr()), (to.policies.len()), (&mut to.answer), (to.certificates.as_mut_ptr()),
                (to.certificates.len()))
        }
    }

    /// The status of the call under a name and a key.
    fn call_under_key(&self, name: &[u8], key: &[u8], to: &mut Filled) -> c_int {
        // SAFETY: as of `call`.
        unsafe {
            lent!(x509_path_validate_views_under_key: [name], [key], [self.joined], [self.lens], [self.name_constraints], [self.policies],
                (&self.settings), (size_of::<PathSettings>()), (to.policies.as_mut_ptr()), (to.policies.len()), (&mut to.answer),
                (to.certificates.as_mut_ptr()), (to.certificates.len()))
        }
    }

    /// The status with that room for the policies and the certificates.
    fn ask(&self, to: &mut Filled) -> c_int {
        match self.trusted {
            Trusted::Certificate(der) => self.call(x509_path_validate_views, der, to),
            Trusted::Anchor(der) => self.call(x509_path_validate_views_under_anchor, der, to),
            Trusted::NameAndKey(name, key) => self.call_under_key(name, key, to),
        }
    }
}

/// Of what gives no trust; its caller says why.
pub(crate) const NO_TRUST: Error = Error::OtherCertificate;

/// What is said of a valid path: the policies under which it is valid, as the DER of a CertificatePolicies, and of each certificate what it says, and what is
/// to be verified of it.
pub(crate) struct ValidPath {
    pub(crate) policies: Vec<u8>,
    pub(crate) certificates: Vec<PathCertificate>,
}

/// What is answered to a path: what is said of a valid one, or its first fault, but those of signatures.
pub(crate) type Judged = Result<ValidPath, PathFault>;

/// What is answered to a path that is to be valid. Where there are no name constraints, these are no bytes; where any policies are accepted, so are these.
pub(crate) fn path_validate(
    trusted: Trusted<'_>,
    path: &[&[u8]],
    name_constraints: &[u8],
    policies: &[u8],
    settings: PathSettings,
) -> Result<Judged, Error> {
    let question = Question {
        trusted,
        joined: path.concat(),
        lens: path.iter().map(|data| data.len()).collect(),
        name_constraints,
        policies,
        settings,
    };
    let mut filled = Filled {
        policies: vec![0; 256],
        answer: PathAnswer::default(),
        certificates: vec![PathCertificate::default(); path.len()],
    };
    loop {
        let status = question.ask(&mut filled);
        let PathAnswer {
            place,
            reason,
            policies_len,
            ..
        } = filled.answer;
        match status {
            FAULT => return Ok(Err(PathFault { place, reason })),
            OK if policies_len > filled.policies.len() => filled.policies.resize(policies_len, 0),
            status => {
                filled.policies.truncate(policies_len);
                let valid = ValidPath {
                    policies: filled.policies,
                    certificates: filled.certificates,
                };
                return accepted_or(NO_TRUST, status, Ok(valid));
            }
        }
    }
}

/// What a search answers.
pub(crate) enum Sought {
    Found(FoundPath),
    Refused(FoundPath),
    UnknownIssuer,
    Limit,
}

/// A search for a path: the bytes of all certificates and keys that it is about, and where each stands.
pub(crate) struct Search {
    bytes: Vec<u8>,
    anchors: Vec<Span>,
    candidates: Vec<Span>,
    leaf: Span,
    bad: Vec<BadLink>,
    path: Vec<usize>,
}

impl Search {
    pub(crate) fn new(anchors: &[&[u8]], candidates: &[&[u8]], leaf: &[u8]) -> Search {
        let mut bytes = Vec::new();
        let mut put = |given: &[&[u8]]| -> Vec<Span> {
            given.iter().map(|it| append(&mut bytes, it)).collect()
        };
        let (anchors, candidates) = (put(anchors), put(candidates));
        let leaf = append(&mut bytes, leaf);
        Search {
            bytes,
            anchors,
            candidates,
            leaf,
            bad: Vec::new(),
            path: vec![0; 16],
        }
    }

    /// Tells that the certificate doesn't stand under the key, as where its signature isn't one by it.
    pub(crate) fn refuse(&mut self, certificate: &[u8], key: &[u8]) {
        let link = BadLink {
            certificate: append(&mut self.bytes, certificate),
            key: append(&mut self.bytes, key),
        };
        self.bad.push(link);
    }

    /// The path that was answered last, by the numbers of the candidates.
    pub(crate) fn path(&self, found: &FoundPath) -> &[usize] {
        self.path.get(..found.count).unwrap_or_default()
    }

    /// What is answered of a path that holds but for signatures, and has none of those that were told.
    pub(crate) fn next(
        &mut self,
        name_constraints: &[u8],
        policies: &[u8],
        settings: &PathSettings,
        max_depth: u8,
    ) -> Result<Sought, Error> {
        loop {
            let mut found = FoundPath::default();
            // SAFETY: the header lets the call read the slices and `settings` of its size, which are lent for it, take any spans and numbers, and fill in
            // `path[0..room)` and `found`, which this owns.
            let status = unsafe {
                lent!(x509_path_find: [self.bytes], [self.anchors], [self.candidates], (&self.leaf), [self.bad], [name_constraints], [policies],
                    (settings), (size_of::<PathSettings>()), (u32::from(max_depth)), (self.path.as_mut_ptr()), (self.path.len()), (&mut found))
            };
            match status {
                OK | FAULT if found.count > self.path.len() => self.path.resize(found.count, 0),
                OK => return Ok(Sought::Found(found)),
                FAULT => return Ok(Sought::Refused(found)),
                ABSENT => return Ok(Sought::UnknownIssuer),
                LIMIT => return Ok(Sought::Limit),
                status => return Err(error(status, NO_TRUST)),
            }
        }
    }
}

/// A CRL, and the name and the key of its signer.
#[derive(Clone, Copy)]
pub(crate) struct GivenCrl<'a> {
    pub(crate) crl: &'a [u8],
    pub(crate) name: &'a [u8],
    pub(crate) key: &'a [u8],
}

/// Where the bytes stand once they stand behind those that are there.
fn append(bytes: &mut Vec<u8>, part: &[u8]) -> Span {
    let place = bytes.len();
    bytes.extend_from_slice(part);
    Span {
        place,
        len: part.len(),
    }
}

/// CRLs, each with whether its signature was verified, as a call is given them: their bytes, and where each stands there.
fn joined(crls: &[(GivenCrl<'_>, bool)]) -> (Vec<u8>, Vec<SignedCrl>) {
    let mut joined = Vec::new();
    let given = crls
        .iter()
        .map(|(it, is_verified)| SignedCrl {
            crl: append(&mut joined, it.crl),
            name: append(&mut joined, it.name),
            key: append(&mut joined, it.key),
            verified: u32::from(*is_verified),
        })
        .collect();
    (joined, given)
}

/// The number of the fault of the CRL at an index, among CRLs, each with whether its signature was verified; 0 where it has none.
pub(crate) fn crl_fault(
    certificate: &[u8],
    crls: &[(GivenCrl<'_>, bool)],
    settings: RevocationSettings,
    index: usize,
) -> Result<u32, Error> {
    let (joined, given) = joined(crls);
    let mut fault = 0;
    // SAFETY: the header lets the call read both slices of bytes, `given` of as many structs as it is told, and `settings` of its size, which are lent for it,
    // take any index, and fill in `fault`.
    let status = unsafe {
        lent!(x509_crl_fault: [certificate], [joined], [given], (&settings), (size_of::<RevocationSettings>()), (index), (&mut fault))
    };
    accepted(status, fault)
}

/// What is answered of CRLs, each with whether its signature was verified.
pub(crate) fn revocation_status(
    certificate: &[u8],
    crls: &[(GivenCrl<'_>, bool)],
    settings: RevocationSettings,
) -> Result<RevocationAnswer, Error> {
    let (joined, given) = joined(crls);
    let mut answer = RevocationAnswer::default();
    // SAFETY: the header lets the call read both slices of bytes, `given` of as many structs as it is told, and `settings` of its size, which are lent for it,
    // and fill in `answer`.
    let status = unsafe {
        lent!(x509_revocation_status: [certificate], [joined], [given], (&settings), (size_of::<RevocationSettings>()), (&mut answer))
    };
    accepted(status, answer)
}

#[cfg(test)]
mod tests {
    use super::*;

    #[test]
    fn spans_outside_of_the_bytes() {
        let of = |place, len| Span { place, len }.of(b"abcd");
        assert_eq!(of(1, 3), Ok(&b"bcd"[..]));
        assert_eq!(of(4, 0), Ok(&b""[..]));
        for (place, len) in [
            (0, 5),
            (5, 0),
            (4, 1),
            (usize::MAX, 1),
            (1, usize::MAX),
            (usize::MAX, usize::MAX),
        ] {
            assert_eq!(of(place, len), Err(Error::Unexpected));
        }
        assert_eq!(Span::default().part(b"abcd"), Ok(None));
        assert_eq!(Span { place: 2, len: 0 }.part(b"abcd"), Ok(Some(&b""[..])));
    }

    unsafe extern "C" fn stays(_: *const u8, _: usize, _: *mut usize, _: *mut Span) -> c_int {
        OK
    }

    #[test]
    fn a_walk_that_does_not_move_on_ends() {
        static STAYS: Walk<Span> = Walk(Next::Plain(stays));
        let mut members = STAYS.over(b"");
        assert_eq!(members.next(), Some(Err(Error::Unexpected)));
        assert_eq!(members.next(), None);
    }

    unsafe extern "C" fn unknown(_: *const u8, _: usize, _: *mut u32) -> c_int {
        99
    }

    unsafe extern "C" fn too_long(
        _: *const u8,
        _: usize,
        _: *mut u8,
        _: usize,
        written: *mut usize,
    ) -> c_int {
        // SAFETY: `fill` lends it.
        unsafe { *written = usize::MAX };
        ROOM
    }

    #[test]
    fn what_the_header_rules_out() {
        assert_eq!(View::new(unknown).of(b""), Err(Error::Unexpected));
        assert_eq!(Fill::new(too_long).of(b""), Err(Error::Memory));
    }
}
