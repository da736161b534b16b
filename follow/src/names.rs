//! Whether a server's certificate is one of the host that was asked for, by the rules of libpq's verify-full (PostgreSQL's documentation, libpq, SSL
//! support), which take more than those of HTTPS.
use openssl::nid::Nid;
use openssl::x509::X509;
use std::net::IpAddr;

/// What a certificate names.
#[derive(Debug, Default, PartialEq)]
struct Names {
    /// Subject alternative names of the types dNSName and iPAddress.
    dns: Vec<String>,
    addresses: Vec<Vec<u8>>,
    common_name: Option<String>,
    /// Whether an alternative name could not be read, as a dNSName that is no UTF-8: it may be of any type.
    unread: bool,
}

/// Whether a certificate, as DER has it, is one of the host; if not, the names that it has.
pub fn certificate_is_of(der: &[u8], host: &str) -> Result<(), String> {
    let names = X509::from_der(der).map(|certificate| Names::of(&certificate)).map_err(|_| "nobody".to_string())?;
    if names.hold(host) {
        return Ok(());
    }
    Err(names.shown())
}

impl Names {
    fn of(certificate: &X509) -> Names {
        let mut names = Names::default();
        for name in certificate.subject_alt_names().iter().flatten() {
            names.dns.extend(name.dnsname().map(String::from));
            names.addresses.extend(name.ipaddress().map(<[u8]>::to_vec));
            names.unread |= name.dnsname().is_none() && name.ipaddress().is_none() && name.email().is_none() && name.uri().is_none();
        }
        let common = certificate.subject_name().entries_by_nid(Nid::COMMONNAME).next();
        // All its bytes: as a text of C's it would end at a zero byte, and be another name.
        names.common_name = common.and_then(|entry| String::from_utf8(entry.data().as_slice().to_vec()).ok());
        names
    }

    // For the line that says that none of them is the host.
    fn shown(&self) -> String {
        let address = |bytes: &Vec<u8>| match (<[u8; 4]>::try_from(&bytes[..]), <[u8; 16]>::try_from(&bytes[..])) {
            (Ok(v4), _) => Some(IpAddr::from(v4).to_string()),
            (_, Ok(v6)) => Some(IpAddr::from(v6).to_string()),
            _ => None,
        };
        let mut all: Vec<String> = self.dns.iter().cloned().chain(self.addresses.iter().filter_map(address)).collect();
        if all.is_empty() {
            all.extend(self.common_name.clone());
        }
        let shown: Vec<String> = all.iter().take(5).map(|name| name.escape_debug().to_string()).collect();
        match shown.join(", ") {
            none if none.is_empty() => "nobody".to_string(),
            some => some,
        }
    }

    // An address is also looked for among the DNS names; the common name counts where there is no alternative name of the host's own type.
    fn hold(&self, host: &str) -> bool {
        let address = host.parse::<IpAddr>().ok();
        let has_type = self.unread || if address.is_some() { !self.addresses.is_empty() } else { !self.dns.is_empty() };
        let bytes = match address {
            Some(IpAddr::V4(v4)) => v4.octets().to_vec(),
            Some(IpAddr::V6(v6)) => v6.octets().to_vec(),
            None => Vec::new(),
        };
        let by_address = address.is_some() && self.addresses.contains(&bytes);
        let by_name = self.dns.iter().any(|name| matches(name, host));
        by_address || by_name || !has_type && self.common_name.as_ref().is_some_and(|name| matches(name, host))
    }
}

// An asterisk that begins a name stands for any letters but a dot.
fn matches(name: &str, host: &str) -> bool {
    if name.contains('\0') || name.is_empty() {
        return false;
    }
    match (name.strip_prefix('*'), host.split_once('.')) {
        (Some(rest), Some((first, _))) if rest.starts_with('.') && rest.len() > 1 => {
            !first.is_empty() && host[first.len()..].eq_ignore_ascii_case(rest)
        }
        _ => name.eq_ignore_ascii_case(host),
    }
}

#[cfg(test)]
mod tests {
    use super::*;
    use openssl::asn1::Asn1Time;
    use openssl::hash::MessageDigest;
    use openssl::pkey::PKey;
    use openssl::rsa::Rsa;
    use openssl::x509::{X509Builder, X509NameBuilder};

    fn names(dns: &[&str], addresses: &[&[u8]], common_name: Option<&str>) -> Names {
        let dns = dns.iter().map(|name| name.to_string()).collect();
        let addresses = addresses.iter().map(|address| address.to_vec()).collect();
        Names { dns, addresses, common_name: common_name.map(String::from), unread: false }
    }

    #[test]
    fn asterisks() {
        for (name, host, same) in [
            ("db.test", "DB.test", true),
            ("*.test", "db.test", true),
            ("*.Test", "db.tesT", true),
            ("*.test", "a.db.test", false),
            ("*.test", ".test", false),
            ("*.test", "test", false),
            ("*", "db", false),
            ("*.", "db.", false),
            ("d*.test", "db.test", false),
            ("*b.test", "db.test", false),
            ("db.test\0.evil", "db.test", false),
            ("", "", false),
            ("*.0.0.1", "127.0.0.1", true),
        ] {
            assert_eq!(matches(name, host), same, "{name} {host}");
        }
    }

    #[test]
    fn alternative_names_and_the_common_name() {
        let loopback = &[127, 0, 0, 1][..];
        for (of, host, held) in [
            (names(&["db.test"], &[], Some("other.test")), "db.test", true),
            // The common name counts only without an alternative name of the type.
            (names(&["db.test"], &[], Some("other.test")), "other.test", false),
            (names(&[], &[], Some("other.test")), "other.test", true),
            (names(&[], &[loopback], Some("other.test")), "other.test", true),
            (names(&[], &[loopback], None), "127.0.0.1", true),
            (names(&[], &[loopback], Some("127.0.0.2")), "127.0.0.2", false),
            (names(&["127.0.0.1"], &[], None), "127.0.0.1", true),
            (names(&["db.test"], &[], Some("127.0.0.1")), "127.0.0.1", true),
            (names(&[], &[&[0, 0, 0, 0, 0, 0, 0, 0, 0, 0, 0, 0, 0, 0, 0, 1]], None), "::1", true),
            (names(&[], &[], None), "db.test", false),
        ] {
            assert_eq!(of.hold(host), held, "{of:?} {host}");
        }
        assert_eq!(certificate_is_of(b"no certificate", "db.test"), Err("nobody".to_string()));
        assert!(!Names { unread: true, ..names(&[], &[], Some("db.test")) }.hold("db.test"));
        assert_eq!(names(&["a.test"], &[loopback], Some("b.test")).shown(), "a.test, 127.0.0.1");
        assert_eq!(names(&[], &[], Some("b\0.test")).shown(), "b\\0.test");
    }

    // A certificate of its own making.
    fn certificate(common_name: &str) -> Vec<u8> {
        let key = PKey::from_rsa(Rsa::generate(2048).unwrap()).unwrap();
        let mut name = X509NameBuilder::new().unwrap();
        name.append_entry_by_nid(Nid::COMMONNAME, common_name).unwrap();
        let mut builder = X509Builder::new().unwrap();
        builder.set_subject_name(&name.build()).unwrap();
        builder.set_not_before(&Asn1Time::days_from_now(0).unwrap()).unwrap();
        builder.set_not_after(&Asn1Time::days_from_now(1).unwrap()).unwrap();
        builder.set_pubkey(&key).unwrap();
        builder.sign(&key, MessageDigest::sha256()).unwrap();
        builder.build().to_der().unwrap()
    }

    #[test]
    fn a_zero_byte_ends_no_name() {
        assert_eq!(certificate_is_of(&certificate("localhost"), "localhost"), Ok(()));
        assert_eq!(certificate_is_of(&certificate("localhost\0.evil.test"), "localhost"), Err("localhost\\0.evil.test".to_string()));
    }
}
