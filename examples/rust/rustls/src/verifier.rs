//! Servers, verified by the paths to their certificates.
use crate::signatures;
use rustls::client::{HandshakeSignatureValid, ServerCertVerified, ServerCertVerifier};
use rustls::internal::msgs::handshake::DigitallySignedStruct;
use rustls::SignatureScheme;
use std::sync::Mutex;
use std::time::SystemTime;
use x509_rattle::{
    verify_server, Certificate, CertificateRef, Crl, CrlRef, Error, FaultReason, FindError,
    RevocationCheck, RevocationSettings, ServerName, Store, VerifyError, VerifySettings,
};

/// Trusts servers under roots, and keeps what is to be said of the last one.
pub struct ByPath {
    roots: Vec<Certificate>,
    moment: Option<SystemTime>,
    crls: Vec<Crl>,
    said: Mutex<Option<String>>,
}

impl ByPath {
    /// Under those roots, at that moment or at any; and none of the path revoked by one of the CRLs.
    pub fn new(roots: Vec<Certificate>, moment: Option<SystemTime>, crls: Vec<Crl>) -> ByPath {
        ByPath {
            roots,
            moment,
            crls,
            said: Mutex::new(None),
        }
    }

    /// What is to be said of the server.
    pub fn said(&self) -> Option<String> {
        self.said.lock().ok()?.clone()
    }

    /// How many certificates the path to the server has.
    fn verify(
        &self,
        server: &rustls::Certificate,
        others: &[rustls::Certificate],
        name: &ServerName,
        now: SystemTime,
    ) -> Result<usize, VerifyError> {
        let store = Store::new(self.roots.iter().map(Certificate::to_ref));
        let crls: Vec<CrlRef<'_>> = self.crls.iter().map(Crl::to_ref).collect();
        let moment = self.moment.unwrap_or(now);
        let mut check = RevocationCheck::new(&crls, RevocationSettings::new(moment));
        check.allow_undetermined(true);
        let mut settings = VerifySettings::new(moment);
        settings.revocation(&check);
        let is_signed = signatures::is_signed;
        let found = verify_server(&store, &server.0, others, name, &settings, &is_signed)?;
        Ok(found.validated.certificates().len())
    }
}

/// A fault by its place, where it is above the last certificate, and the number of its reason in `x509.h`.
fn fault(place: Option<usize>, reason: FaultReason) -> String {
    let place = place.map_or("leaf".to_owned(), |it| it.to_string());
    format!("fault {place} {}", reason as u32)
}

/// Why a server isn't trusted.
fn words(error: &VerifyError) -> String {
    match error {
        VerifyError::OtherName => "not the host".to_owned(),
        VerifyError::OutOfDate(_) => fault(None, FaultReason::Moment),
        VerifyError::Path(error) => match error {
            FindError::Leaf(reason) => fault(None, *reason),
            FindError::UnknownIssuer => "unknown issuer".to_owned(),
            FindError::Refused {
                candidates,
                fault: it,
                ..
            } => fault((it.place < candidates.len()).then_some(it.place), it.reason),
            FindError::Revocation { place, .. } => format!("revoked {place}"),
            FindError::Limit => "limit".to_owned(),
            FindError::Error(error) => format!("refused {error}"),
        },
    }
}

/// The name as the library has it.
fn name(name: &rustls::ServerName) -> Result<ServerName, Error> {
    match name {
        rustls::ServerName::DnsName(name) => name.as_ref().parse(),
        rustls::ServerName::IpAddress(address) => Ok((*address).into()),
        _ => Err(Error::ServerName),
    }
}

impl ServerCertVerifier for ByPath {
    fn verify_server_cert(
        &self,
        end_entity: &rustls::Certificate,
        intermediates: &[rustls::Certificate],
        server_name: &rustls::ServerName,
        _scts: &mut dyn Iterator<Item = &[u8]>,
        _ocsp_response: &[u8],
        now: SystemTime,
    ) -> Result<ServerCertVerified, rustls::Error> {
        let found = name(server_name).map_err(VerifyError::from);
        let found = found.and_then(|name| self.verify(end_entity, intermediates, &name, now));
        if let Ok(mut said) = self.said.lock() {
            *said = Some(match &found {
                Ok(count) => format!("trusted {count}"),
                Err(error) => words(error),
            });
        }
        match found {
            Ok(_) => Ok(ServerCertVerified::assertion()),
            Err(error) => Err(rustls::Error::InvalidCertificateData(error.to_string())),
        }
    }

    fn verify_tls12_signature(
        &self,
        message: &[u8],
        certificate: &rustls::Certificate,
        signed: &DigitallySignedStruct,
    ) -> Result<HandshakeSignatureValid, rustls::Error> {
        self.verify_tls13_signature(message, certificate, signed)
    }

    fn verify_tls13_signature(
        &self,
        message: &[u8],
        certificate: &rustls::Certificate,
        signed: &DigitallySignedStruct,
    ) -> Result<HandshakeSignatureValid, rustls::Error> {
        let certificate = CertificateRef::from_der(&certificate.0)
            .map_err(|_| rustls::Error::InvalidCertificateEncoding)?;
        let key = certificate.subject_public_key_info();
        if signatures::is_handshake(key, signed.scheme, message, signed.signature()) {
            Ok(HandshakeSignatureValid::assertion())
        } else {
            Err(rustls::Error::InvalidCertificateSignature)
        }
    }

    fn supported_verify_schemes(&self) -> Vec<SignatureScheme> {
        signatures::SCHEMES.to_vec()
    }
}
