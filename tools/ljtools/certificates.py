"""Certificates that openssl makes, for `shards` and `class`."""
import contextlib
import hashlib
import ipaddress
import ssl
import subprocess
from typing import Sequence

from .children import environment
from .user_files import Fault

DAYS = 397
BEGIN = "-----BEGIN CERTIFICATE"


def alternative(name: str) -> str:
    """A name of a host as written in a certificate."""
    with contextlib.suppress(ValueError):
        return f"IP:{ipaddress.ip_address(name)}"
    return f"DNS:{name}"


def made_certificate(names: Sequence[str]) -> str:
    """A new key with its certificate for hosts of these names or addresses, in PEM. Raises Fault if openssl makes none."""
    words = ["openssl", "req", "-x509", "-newkey", "ec", "-pkeyopt", "ec_paramgen_curve:prime256v1", "-nodes", "-days", str(DAYS)]
    words += ["-subj", "/CN=ljserve", "-addext", f"subjectAltName={','.join(map(alternative, names))}", "-keyout", "-", "-out", "-"]
    try:
        return subprocess.run(words, stdin=subprocess.DEVNULL, capture_output=True, text=True, check=True, env=environment()).stdout
    except FileNotFoundError as error:
        raise Fault("cannot make a certificate: openssl is not installed; use apt-get install openssl") from error
    except OSError as error:
        raise Fault(f"cannot start openssl: {error.strerror}") from error
    except subprocess.CalledProcessError as error:
        raise Fault(f"cannot make a certificate: {error.stderr.strip().splitlines()[-1]}") from error


def certificate_in(made: str) -> str:
    """The certificate in a text of `made_certificate`, without its key."""
    return made[made.index(BEGIN) :]


def fingerprint_of(made: str) -> str:
    """The SHA-256 of the certificate in such a text, in hexadecimal digits."""
    return hashlib.sha256(ssl.PEM_cert_to_DER_cert(certificate_in(made))).hexdigest()
