"""Certificates, revocation lists and signed messages under HSS/LMS keys: RFC 9802 (X.509) and RFC 9708 (CMS).

Each is built as a draft, with an empty signature, and read back strictly. asn1crypto (Debian's python3-asn1crypto) writes
and reads the DER. An HSS key or signature has the bytes of RFC 8554, section 6, and stands as it is in the bit string.
"""
import datetime
import hashlib
import re
import secrets

from asn1crypto import algos, cms, core, crl, csr, keys, pem, x509

HSS = "hss_lms_hashsig"
NAMES = {"C": "country_name", "ST": "state_or_province_name", "L": "locality_name", "O": "organization_name",
         "OU": "organizational_unit_name", "CN": "common_name", "serialNumber": "serial_number"}
KINDS = {"certificate": x509.Certificate, "revocation list": crl.CertificateList, "signed message": cms.ContentInfo}


def _teach():
    """Teaches asn1crypto the algorithm, which has no parameters, and that its keys are bits without a structure."""
    for ids in (algos.SignedDigestAlgorithmId, keys.PublicKeyAlgorithmId):
        ids._map["1.2.840.113549.1.9.16.3.17"] = HSS
        if ids._reverse_map is not None:
            ids._reverse_map[HSS] = "1.2.840.113549.1.9.16.3.17"
    known = keys.PublicKeyInfo._public_key_spec

    def spec(info):
        return (core.OctetBitString, None) if info["algorithm"]["algorithm"].native == HSS else known(info)

    keys.PublicKeyInfo._spec_callbacks = {"public_key": spec}


_teach()
ALGORITHM = algos.SignedDigestAlgorithm({"algorithm": HSS}).dump()
# the parameters are NULL or absent (RFC 5754, section 2)
SHA256 = algos.DigestAlgorithm({"algorithm": "sha256"}).native


class Refused(Exception):
    """What was handed in is not what it should be; the text says why."""


def want(is_so, why):
    if not is_so:
        raise Refused(why)


# Parts


def moment(text):
    """Reads a moment such as 2051-01-01 or 2051-01-01T12:00:00Z, in UTC if it names no zone."""
    try:
        read = datetime.datetime.fromisoformat(text.replace("Z", "+00:00"))
    except ValueError:
        raise Refused(f"{text} is no moment such as 2051-01-01 or 2051-01-01T12:00:00Z") from None
    zone = read if read.tzinfo else read.replace(tzinfo=datetime.timezone.utc)
    return zone.astimezone(datetime.timezone.utc).replace(microsecond=0)


def time(at):
    """A Time: UTCTime before 2050 and GeneralizedTime from then on (RFC 5280, section 4.1.2.5)."""
    if at.year < 2050:
        return x509.Time("utc_time", x509.UTCTime(at))
    return x509.Time("general_time", x509.GeneralizedTime(at))


def name(words):
    """A distinguished name from words such as CN=Root, O=Example."""
    parts = {}
    for word in words:
        kind, equals, value = word.partition("=")
        want(equals and value and kind in NAMES, f"{word} is no part of a name: {', '.join(NAMES)} may be named, as CN=Root")
        want(NAMES[kind] not in parts, f"{kind} is named twice")
        want(kind != "C" or re.fullmatch("[A-Z]{2}", value), "C is a country of two letters, such as SE")
        want(kind != "serialNumber" or re.fullmatch("[A-Za-z0-9 '()+,./:=?-]+", value), "serialNumber has a letter that may not be there")
        parts[NAMES[kind]] = value
    return x509.Name.build(parts)


def hss_key(content, levels):
    """The HSS key of a file: an LMS key (48 or 56 bytes) with the number of levels in front, or an HSS key as it is."""
    if len(content) in (48, 56):
        return levels.to_bytes(4, "big") + content
    want(len(content) in (52, 60), f"a key of {len(content)} bytes is neither an LMS key nor an HSS key")
    want(content[:4] == levels.to_bytes(4, "big"), f"the HSS key does not have {levels} levels")
    return content


def public_key(hss):
    """The SubjectPublicKeyInfo of an HSS key."""
    return keys.PublicKeyInfo({"algorithm": {"algorithm": HSS}, "public_key": hss})


def key_of(certificate):
    """The HSS key of a certificate."""
    info = certificate["tbs_certificate"]["subject_public_key_info"]
    want(info["algorithm"]["algorithm"].native == HSS, "the key of this certificate is no HSS key")
    return info["public_key"].native


def key_id(info):
    """The identifier of a key: 160 bits of the SHA-256 of its bit string (RFC 7093, method 1)."""
    return hashlib.sha256(info["public_key"].contents[1:]).digest()[:20]


def extension(kind, value, critical=False):
    return {"extn_id": kind, "critical": critical, "extn_value": value}


def extension_of(certificate, kind):
    """The value of an extension of a certificate, or None."""
    for it in certificate["tbs_certificate"]["extensions"]:
        if it["extn_id"].native == kind:
            return it["extn_value"].parsed
    return None


def issuer_id(ca):
    """The extension that names the key of an issuer."""
    own = extension_of(ca, "key_identifier")
    want(own is not None, "the issuer's certificate has no key identifier")
    return extension("authority_key_identifier", {"key_identifier": own.native})


def usage(certificate):
    value = extension_of(certificate, "key_usage")
    return set() if value is None else value.native


# Drafts


def _certificate(issuer, subject, info, begin, end, extensions):
    """A version 3 certificate with a random serial number of 16 bytes, not signed yet."""
    want(begin < end, "the lifetime is over before it begins")
    return x509.Certificate({
        "tbs_certificate": {
            "version": "v3",
            "serial_number": 1 << 126 | secrets.randbits(126),
            "signature": {"algorithm": HSS},
            "issuer": issuer,
            "validity": {"not_before": time(begin), "not_after": time(end)},
            "subject": subject,
            "subject_public_key_info": info,
            "extensions": [extension("key_identifier", key_id(info)), *extensions],
        },
        "signature_algorithm": {"algorithm": HSS},
        "signature_value": b"",
    })


def root(hss, subject, begin, end, path_length=None, signs_data=False):
    """The draft of a certificate that is signed with the key that it certifies."""
    uses = {"key_cert_sign", "crl_sign"} | ({"digital_signature"} if signs_data else set())
    return _certificate(subject, subject, public_key(hss), begin, end, [
        extension("basic_constraints", {"ca": True, "path_len_constraint": path_length}, True),
        extension("key_usage", x509.KeyUsage(uses), True),
    ])


def issued(ca, info, subject, begin, end, dns=(), is_authority=False, crl_url=None):
    """The draft of a certificate for another key: of an authority below this one, or of an end entity."""
    tbs = ca["tbs_certificate"]
    constraint = extension_of(ca, "basic_constraints")
    want(constraint is not None and constraint["ca"].native, "the issuer's certificate is not one of an authority")
    room = constraint["path_len_constraint"].native
    want(not is_authority or room is None or room > 0, "the issuer's path length allows no authority below it")
    want("key_cert_sign" in usage(ca), "the issuer's key is not one for certificates")
    want(end <= tbs["validity"]["not_after"].native, "the certificate would outlive its issuer's")
    want(tbs["validity"]["not_before"].native <= begin, "the certificate would begin before its issuer's")
    want(subject.native or dns, "a certificate needs a subject, or a DNS name")
    uses = {"key_cert_sign", "crl_sign"} if is_authority else {"digital_signature"}
    constraints = {"ca": True, "path_len_constraint": 0} if is_authority else {"ca": False}
    extensions = [
        issuer_id(ca),
        extension("basic_constraints", constraints, True),
        extension("key_usage", x509.KeyUsage(uses), True),
    ]
    try:
        if dns:
            names = [x509.GeneralName("dns_name", it) for it in dns]
            extensions.append(extension("subject_alt_name", names, not subject.native))
        if crl_url:
            place = x509.DistributionPointName("full_name", [x509.GeneralName("uniform_resource_identifier", crl_url)])
            extensions.append(extension("crl_distribution_points", [{"distribution_point": place}]))
    except ValueError as fault:
        raise Refused(f"this is no DNS name, or no URL: {str(fault).splitlines()[0]}") from None
    return _certificate(tbs["subject"], subject, info, begin, end, extensions)


def revocations(ca, number, begin, end, entries):
    """The draft of a revocation list: entries are serial number, moment, and a reason or None."""
    want("crl_sign" in usage(ca), "the issuer's key is not one for revocation lists")
    want(begin < end, "the list is over before it begins")
    want(number >= 0, "the number of a list is not negative")
    revoked = []
    for serial, at, reason in entries:
        entry = {"user_certificate": serial, "revocation_date": time(at)}
        if reason:
            entry["crl_entry_extensions"] = [{"extn_id": "crl_reason", "critical": False, "extn_value": reason}]
        revoked.append(entry)
    tbs = {
        "version": "v2",
        "signature": {"algorithm": HSS},
        "issuer": ca["tbs_certificate"]["subject"],
        "this_update": time(begin),
        "next_update": time(end),
        "crl_extensions": [issuer_id(ca), extension("crl_number", number)],
    }
    if revoked:
        tbs["revoked_certificates"] = revoked
    return crl.CertificateList(
        {"tbs_cert_list": tbs, "signature_algorithm": {"algorithm": HSS}, "signature": b""})


def message(signer, content, at, is_detached=False, with_certificate=True):
    """The draft of a CMS SignedData with signed attributes over a content, which it has inside unless it is detached."""
    want(usage(signer) & {"digital_signature", "non_repudiation"}, "the signer's key is not one for data")
    tbs = signer["tbs_certificate"]
    protection = {"digest_algorithm": {"algorithm": "sha256"}, "signature_algorithm": {"algorithm": HSS}}
    attributes = [
        {"type": "content_type", "values": ["data"]},
        {"type": "signing_time", "values": [cms.Time(time(at).name, time(at).chosen)]},
        {"type": "message_digest", "values": [hashlib.sha256(content).digest()]},
        {"type": "cms_algorithm_protection", "values": [protection]},
    ]
    signed = {
        "version": "v1",
        "digest_algorithms": [{"algorithm": "sha256"}],
        "encap_content_info": {"content_type": "data"} if is_detached else {"content_type": "data", "content": content},
        "signer_infos": [{
            "version": "v1",
            "sid": cms.SignerIdentifier("issuer_and_serial_number", {
                "issuer": tbs["issuer"], "serial_number": tbs["serial_number"]}),
            "digest_algorithm": {"algorithm": "sha256"},
            "signed_attrs": attributes,
            "signature_algorithm": {"algorithm": HSS},
            "signature": b"",
        }],
    }
    if with_certificate:
        signed["certificates"] = [signer]
    return cms.ContentInfo({"content_type": "signed_data", "content": signed})


# What is signed, and with what


def signed_bytes(it):
    """The exact bytes that are signed: of a message the signed attributes, as a SET OF (RFC 5652, section 5.4)."""
    if isinstance(it, x509.Certificate):
        return it["tbs_certificate"].dump()
    if isinstance(it, crl.CertificateList):
        return it["tbs_cert_list"].dump()
    return it["content"]["signer_infos"][0]["signed_attrs"].untag().dump()


def _signature_field(it):
    if isinstance(it, x509.Certificate):
        return it, "signature_value"
    return (it, "signature") if isinstance(it, crl.CertificateList) else (it["content"]["signer_infos"][0], "signature")


def signature(it):
    """The HSS signature."""
    place, field = _signature_field(it)
    return place[field].native


def with_signature(kind, draft, hss_signature):
    """The bytes of a draft with its signature."""
    it = read(kind, draft)
    place, field = _signature_field(it)
    place[field] = hss_signature
    return it.dump(force=True)


# Reading


def unarmored(content):
    """The DER of a file that may be PEM."""
    return pem.unarmor(content)[2] if pem.detect(content) else content


def read(kind, content):
    """Reads a certificate, revocation list or signed message from exactly these bytes, which have to be its DER."""
    try:
        it = KINDS[kind].load(content, strict=True)
        it.native  # reads all parts
        again = KINDS[kind].load(content, strict=True).copy().dump(force=True)
    except (ValueError, TypeError, KeyError, AttributeError, IndexError, OverflowError) as fault:
        raise Refused(f"this is no {kind}: {str(fault).splitlines()[0] if str(fault) else type(fault).__name__}") from None
    want(again == content, f"this {kind} is not in DER")
    if kind == "signed message":
        want(it["content_type"].native == "signed_data", "this is no signed message")
        want(len(it["content"]["signer_infos"]) == 1, "the message has not one signer")
        want(it["content"]["signer_infos"][0]["signed_attrs"].native, "the message has no signed attributes")
    return it


def kind_of(content):
    """Finds out what a file is, by reading it as each kind."""
    for kind in KINDS:
        try:
            return kind, read(kind, content)
        except Refused:
            pass
    raise Refused("this is no certificate, revocation list or signed message in DER")


def request(content):
    """Reads a PKCS#10 request: its subject, its key, and the names of the extensions that it asks for."""
    try:
        it = csr.CertificationRequest.load(content, strict=True)
        info = it["certification_request_info"]
        asked = [each["extn_id"].native for attribute in info["attributes"] if attribute["type"].native == "extension_request"
                 for value in attribute["values"] for each in value]
        return info["subject"], info["subject_pk_info"], asked
    except (ValueError, TypeError, KeyError) as fault:
        raise Refused(f"this is no PKCS#10 request: {str(fault).splitlines()[0]}") from None


# Tests of what was read. Each refuses with the first reason.


def test(it, ca, at, is_accepted, content=None, revocations=None):
    """Refuses a certificate, revocation list or message unless all about it is right at a moment, under the certificate
    of its issuer or signer. is_accepted(key, message, signature) verifies an HSS signature. The content is that of a
    message; a revocation list goes with a certificate, which it must not name.
    """
    key = key_of(ca)
    if isinstance(it, x509.Certificate):
        test_certificate(it, ca, at)
    elif isinstance(it, crl.CertificateList):
        test_revocations(it, ca, at)
    else:
        test_message(it, ca, at, content)
    want(is_accepted(key, signed_bytes(it), signature(it)), "the signature is not accepted")
    if revocations is not None:
        test_revocations(revocations, ca, at)
        want(is_accepted(key, signed_bytes(revocations), signature(revocations)),
             "the signature of the revocation list is not accepted")
        want(not is_revoked(revocations, it), "the certificate is revoked")


def test_algorithms(*found):
    for it in found:
        want(it.dump() == ALGORITHM, "the signature's algorithm is not HSS/LMS, without parameters")


def test_moment(what, begin, end, at):
    want(begin <= at, f"{what} is not valid before {begin:%Y-%m-%dT%H:%M:%SZ}")
    want(at <= end, f"{what} is not valid after {end:%Y-%m-%dT%H:%M:%SZ}")


def test_authority(ca, use):
    """The certificate of an issuer may be used as that of one."""
    constraint = extension_of(ca, "basic_constraints")
    want(constraint is not None and constraint["ca"].native, "the issuer's certificate is not one of an authority")
    want(use in usage(ca), f"the issuer's key usage lacks {use}")


def test_link(ca, issuer, identifier):
    """Issuer and key identifier are those of this authority."""
    want(issuer.dump() == ca["tbs_certificate"]["subject"].dump(), "the issuer is another one")
    own = extension_of(ca, "key_identifier")
    want(identifier is not None and own is not None and identifier["key_identifier"].native == own.native,
         "the key identifier of the issuer is another one")


def test_certificate(it, ca, at):
    """A certificate under this authority, or the authority's own, is one that may be used at this moment."""
    tbs = it["tbs_certificate"]
    want(tbs["version"].native == "v3", "the certificate is not of version 3")
    test_algorithms(tbs["signature"], it["signature_algorithm"])
    test_authority(ca, "key_cert_sign")
    identifier = extension_of(it, "authority_key_identifier")
    if it.dump() == ca.dump() and identifier is None:
        want(tbs["issuer"].dump() == tbs["subject"].dump(), "the issuer is another one")
    else:
        test_link(ca, tbs["issuer"], identifier)
    kinds = [each["extn_id"].native for each in tbs["extensions"]]
    want(len(kinds) == len(set(kinds)), "an extension is there twice")
    for each in tbs["extensions"]:
        want(not each["critical"].native or each["extn_id"].native in ("basic_constraints", "key_usage", "subject_alt_name"),
             f"the critical extension {each['extn_id'].native} is not known here")
    constraint = extension_of(it, "basic_constraints")
    is_authority = constraint is not None and constraint["ca"].native
    room = extension_of(ca, "basic_constraints")["path_len_constraint"].native
    want(it.dump() == ca.dump() or not is_authority or room is None or room > 0, "the issuer allows no authority below it")
    want(is_authority == ("key_cert_sign" in usage(it)), "key usage and basic constraints disagree")
    for each, what in ((ca, "the issuer's certificate"), (it, "the certificate")):
        valid = each["tbs_certificate"]["validity"]
        test_moment(what, valid["not_before"].native, valid["not_after"].native, at)


def test_revocations(it, ca, at):
    """A revocation list is one of this authority that is current at this moment."""
    tbs = it["tbs_cert_list"]
    want(tbs["version"].native == "v2", "the revocation list is not of version 2")
    test_algorithms(tbs["signature"], it["signature_algorithm"])
    test_authority(ca, "crl_sign")
    kinds = {each["extn_id"].native: each for each in tbs["crl_extensions"]}
    want(len(kinds) == len(tbs["crl_extensions"]), "an extension is there twice")
    want(set(kinds) == {"authority_key_identifier", "crl_number"}, "the revocation list has other extensions than its issuer's")
    test_link(ca, tbs["issuer"], kinds["authority_key_identifier"]["extn_value"].parsed)
    want(tbs["next_update"].native is not None, "the revocation list does not say when the next one comes")
    test_moment("the revocation list", tbs["this_update"].native, tbs["next_update"].native, at)


def is_revoked(it, certificate):
    """Whether a revocation list names a certificate."""
    serial = certificate["tbs_certificate"]["serial_number"].native
    entries = it["tbs_cert_list"]["revoked_certificates"]
    return any(each["user_certificate"].native == serial for each in entries or ())


def test_message(it, signer, at, content):
    """A message is one by this signer, over this content if it is detached, else over the content inside."""
    signed = it["content"]
    info = signed["signer_infos"][0]
    want((signed["version"].native, info["version"].native) == ("v1", "v1"), "the message is not of version 1")
    want([each.native for each in (*signed["digest_algorithms"], info["digest_algorithm"])] == [SHA256] * 2,
         "the digest is not SHA-256")
    test_algorithms(info["signature_algorithm"])
    tbs = signer["tbs_certificate"]
    sid = info["sid"].chosen
    want(info["sid"].name == "issuer_and_serial_number" and sid["issuer"].dump() == tbs["issuer"].dump()
         and sid["serial_number"].native == tbs["serial_number"].native, "the signer is another one")
    want([each.chosen.dump() for each in signed["certificates"] or ()] in ([], [signer.dump()]),
         "the message has another certificate inside")
    want(not signed["crls"].native and not info["unsigned_attrs"].native, "the message has parts that nobody signed")
    want(usage(signer) & {"digital_signature", "non_repudiation"}, "the signer's key is not one for data")
    encapsulated = signed["encap_content_info"]
    want(encapsulated["content_type"].native == "data", "the content is not of the type data")
    inside = encapsulated["content"].native
    want(inside is None or content is None or inside == content, "the content inside is another one")
    content = inside if content is None else content
    want(content is not None, "the message is detached: name its content")
    found = {each["type"].native: each["values"] for each in info["signed_attrs"]}
    want(len(found) == len(info["signed_attrs"]) and all(len(each) == 1 for each in found.values()),
         "a signed attribute is there twice")
    want("content_type" in found and found["content_type"][0].native == "data", "the signed type of the content is another one")
    want("message_digest" in found and found["message_digest"][0].native == hashlib.sha256(content).digest(),
         "the content is another one")
    if "cms_algorithm_protection" in found:
        guard = found["cms_algorithm_protection"][0]
        want(guard["digest_algorithm"].native == SHA256 and guard["mac_algorithm"].native is None
             and guard["signature_algorithm"].untag().dump() == ALGORITHM, "the signed algorithms are other ones")
    test_moment("the signer's certificate", tbs["validity"]["not_before"].native, tbs["validity"]["not_after"].native, at)
