"""The slips of a class: their text, the page that is printed, its QR codes, and the PDF."""
import html
import os
import pathlib
import re
import shutil
import subprocess
import sys
from typing import Any, List
from unittest import mock

import pytest

from lessons import Lesson, told
from support import SECONDS, TOP, present

sys.path.append(str(TOP / "tools"))
from ljtools.teaching import slips as module  # noqa: E402
from ljtools.user_files import Fault, User, Way  # noqa: E402

TOKEN = "abcdefghijkmnpqrstuvwxyzABCDEFGH"
FINGERPRINT = "0123456789abcdef" * 4
USERS = [User("ann", TOKEN), User("ben-2", TOKEN[::-1])]
WAY = Way("192.0.2.10:4000", fingerprint=FINGERPRINT)


def without(*names: str) -> Any:
    """No module of these names can be imported."""
    return mock.patch.dict(sys.modules, dict.fromkeys(names))


def test_the_text_says_what_is_typed() -> None:
    text = module.text_of_slips(USERS, WAY)
    half = "0123:4567:89ab:cdef:0123:4567:89ab:cdef"
    assert f"\n    python3 -m ljclient 192.0.2.10:4000 ben-2 --fingerprint {half}\n" in text
    assert text.count("\n    0123 4567 89ab cdef 0123 4567 89ab cdef\n    0123 4567 89ab cdef 0123 4567 89ab cdef\n") == 2
    assert 'connect("192.0.2.10", 4000, "ann",\n                   "abcd efgh' in text and f'fingerprint="{half}")\n' in text
    plain = module.text_of_slips(USERS, Way("192.0.2.10:4000"))
    assert "fingerprint" not in plain and "\n    python3 -m ljclient 192.0.2.10:4000 ann\n" in plain


def test_the_page_has_all_that_a_slip_says() -> None:
    with without("qrcode"):
        page = module.page_of(USERS, WAY)
    assert page.count("<section>") == 2 and "<svg" not in page
    text = html.unescape(re.sub("<[^>]*>", "", page))
    for line in ("Address: 192.0.2.10:4000", "Token: abcd efgh ijkm npqr stuv wxyz ABCD EFGH", "Once: pip install clients/python"):
        assert f"\n{line}\n" in text
    half = "0123:4567:89ab:cdef:0123:4567:89ab:cdef"
    assert f"\nThen: python3 -m ljclient 192.0.2.10:4000 ben-2 --fingerprint {half}\n" in text
    assert "break-inside: avoid" in page and "http" not in page


def read_codes(picture: Any) -> List[str]:
    done = subprocess.run(["zbarimg", "--quiet", "--raw", str(picture)], capture_output=True, text=True, timeout=SECONDS)
    return sorted(done.stdout.splitlines())


def bitmap(svg: str, scale: int = 4) -> bytes:
    """A drawn code as a picture (PGM), from the paths of its SVG."""
    size = int(present(re.search(r'viewBox="0 0 (\d+) \1"', svg))[1])
    dark = {(int(x), int(y)) for x, y in re.findall(r"M(\d+) (\d+)h1v1h-1z", svg)}
    rows = b"".join(bytes(0 if (x // scale, y // scale) in dark else 255 for x in range(size * scale)) for y in range(size * scale))
    return b"P5 %d %d 255\n" % (size * scale, size * scale) + rows


@pytest.mark.skipif(shutil.which("zbarimg") is None, reason="zbarimg is not installed")
def test_qr_codes_say_address_name_token_and_fingerprint(tmp_path: pathlib.Path) -> None:
    """A third-party program reads them."""
    pytest.importorskip("qrcode", reason="qrcode is not installed")
    codes = re.findall("<svg.*?</svg>", module.page_of(USERS, WAY), re.S)
    assert len(codes) == 2
    for user, code in zip(USERS, codes):
        (tmp_path / "code.pgm").write_bytes(bitmap(code))
        assert read_codes(tmp_path / "code.pgm") == [f"192.0.2.10:4000 {user.name} {user.token} {FINGERPRINT}"]
    (tmp_path / "plain.pgm").write_bytes(bitmap(module.drawn_code(module.code_text(USERS[0], Way("h:1")))))
    assert read_codes(tmp_path / "plain.pgm") == [f"h:1 ann {TOKEN}"]


def test_what_is_missing_is_told(tmp_path: pathlib.Path) -> None:
    slips = module.Slips(str(tmp_path / "slips.txt"), has_pdf=True)
    with without("qrcode", "reportlab"):
        qr, pdf = slips.missing()
        assert slips.write(USERS, WAY) == [slips.text, slips.page]
    assert qr == "slips have no QR codes, since python3-qrcode is not installed: apt-get install python3-qrcode"
    why = "since python3-reportlab is not installed: apt-get install python3-reportlab"
    assert pdf == f"there is no {tmp_path}/slips.pdf, {why}, or print {tmp_path}/slips.html in a browser"
    with mock.patch.object(module, "module_of", lambda name: module):
        assert slips.missing() == []


def test_a_pdf_with_eight_slips_on_a_page(tmp_path: pathlib.Path) -> None:
    pytest.importorskip("reportlab", reason="reportlab is not installed")
    slips = module.Slips(str(tmp_path / "slips.txt"), has_pdf=True)
    users = [User(f"student{number:02}", TOKEN) for number in range(1, 18)]
    assert slips.write(users, WAY) == [slips.text, slips.page, slips.pdf]
    data = (tmp_path / "slips.pdf").read_bytes()
    assert data.startswith(b"%PDF-") and len(re.findall(rb"/Type\s*/Page\b", data)) == 3
    assert os.stat(slips.pdf).st_mode & 0o777 == 0o600


def test_slips_are_written_where_something_has_changed(tmp_path: pathlib.Path) -> None:
    slips = module.Slips(str(tmp_path / "s.txt"), has_pdf=False)
    assert slips.write(USERS, WAY) == [slips.text, slips.page] and slips.write(USERS, WAY) == []
    (tmp_path / "s.html").unlink()
    assert slips.write(USERS, WAY) == [slips.page]
    (tmp_path / "s.txt").chmod(0o644)
    assert slips.write(USERS, WAY) == [slips.text] and os.stat(slips.text).st_mode & 0o777 == 0o600
    assert slips.write(USERS[:1], WAY) == [slips.text, slips.page]
    with pytest.raises(Fault, match="cannot write .*s.txt: it exists already; use --replace"):
        slips.check(False)
    slips.check(True)


def test_long_lines_are_cut_at_blanks() -> None:
    assert module.pieces("aa bb cc", 6) == ["aa bb", "cc"] and module.pieces("a" * 50, 6) == ["a" * 50]


# The certificate.


def test_without_openssl_a_class_says_what_to_install(tmp_path: pathlib.Path) -> None:
    (tmp_path / "bin").mkdir()
    for name in ("python3", "sh"):
        (tmp_path / "bin" / name).symlink_to(present(shutil.which(name)))
    folder = tmp_path / "here"
    folder.mkdir()
    words = ["ann", "--listen", "127.0.0.1:0", "--workers", "1"]
    why = "cannot make a certificate: openssl is not installed; use apt-get install openssl"
    why += ", or --plain, with which the network sees the tokens"
    assert told(folder, *words, path=tmp_path / "bin") == (1, "", f"class: {why}\n")


@pytest.mark.skipif(shutil.which("openssl") is None, reason="openssl is not installed")
def test_the_fingerprint_is_that_which_openssl_tells(tmp_path: pathlib.Path) -> None:
    lesson = Lesson(tmp_path, "ann")
    try:
        words = ["openssl", "x509", "-in", "class-kept/class.crt", "-noout", "-fingerprint", "-sha256"]
        found = subprocess.run(words, cwd=tmp_path, capture_output=True, text=True, check=True, timeout=SECONDS).stdout
        digits = found.strip().partition("=")[2].replace(":", "").lower()
        assert len(digits) == 64 and lesson.fingerprint().replace(":", "") == digits[:32]
        assert digits[32:] in re.sub(r"\s", "", lesson.slips())
        connected = subprocess.run(
            ["openssl", "s_client", "-connect", f"127.0.0.1:{lesson.port}", "-CAfile", "class-kept/class.crt", "-verify_return_error"],
            cwd=tmp_path, input="", capture_output=True, text=True, timeout=SECONDS,
        )  # fmt: skip
        assert "Verification: OK" in connected.stdout and "TLSv1.3" in connected.stdout
        # openssl has ended its side of TLS, and asyncio may warn of that.
        lesson.until("not in ")
        assert "ssl" not in lesson.shown
    finally:
        lesson.close()
    (tmp_path / "class-kept" / "class.pem").write_text("no certificate")
    status, _, err = told(tmp_path, "ann", "--listen", "127.0.0.1:0")
    assert status == 1 and re.search(r"cannot use class-kept/class.pem \(.*\): remove it, and another one is made", err)
