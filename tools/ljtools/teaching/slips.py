"""The slips of a class: as text, as a page to print and as a PDF, both with QR codes if these can be made."""
import html
import importlib
import os
import pathlib
from typing import Any, Dict, List, Optional, Sequence

from ..user_files import DIGITS_TYPED, Fault, User, Way, in_groups, slip_of, write_secrets

QUIET = 2  # the light modules around a QR code: the page around them is white too
STYLE = """\
body { font: 10pt/1.3 sans-serif; margin: 0; }
main { display: grid; grid-template-columns: 1fr 1fr; }
section { border: 1px dashed #888; padding: 4mm; break-inside: avoid; overflow: hidden; }
h2 { font-size: 13pt; margin: 0 0 2mm; }
p { margin: 1mm 0; }
code { font: 9pt monospace; }
span { white-space: nowrap; }
svg { float: right; width: 33mm; height: 33mm; margin-left: 2mm; }
@page { size: A4; margin: 10mm; }
"""
NO_CODES = "slips have no QR codes, since python3-qrcode is not installed: apt-get install python3-qrcode"
NO_PDF = "there is no {}, since python3-reportlab is not installed: apt-get install python3-reportlab, or print {} in a browser"
COLUMNS, ROWS, MARGIN = 2, 4, 28.0


def module_of(name: str) -> Any:
    """A module that may be missing, or None."""
    try:
        return importlib.import_module(name)
    except ImportError:
        return None


def code_text(user: User, way: Way) -> str:
    """The text of a QR code: the link to the user's page or, if there is none, address, name, token and any fingerprint."""
    if way.page:
        return way.link(user)
    return " ".join([way.server, user.name, user.token, *([way.fingerprint] if way.fingerprint else [])])


def matrix_of(text: str) -> Optional[List[List[bool]]]:
    """The modules of a QR code, dark ones true, or None if it cannot be made."""
    qrcode = module_of("qrcode")
    if qrcode is None:
        return None
    code = qrcode.QRCode(border=QUIET, error_correction=qrcode.constants.ERROR_CORRECT_M)
    code.add_data(text)
    return [[bool(each) for each in row] for row in code.get_matrix()]


def drawn_code(text: str) -> str:
    """A QR code as SVG, or nothing if it cannot be made."""
    matrix = matrix_of(text)
    if matrix is None:
        return ""
    dark = "".join(f"M{x} {y}h1v1h-1z" for y, row in enumerate(matrix) for x, is_dark in enumerate(row) if is_dark)
    return f'<svg viewBox="0 0 {len(matrix)} {len(matrix)}" shape-rendering="crispEdges"><path d="{dark}"/></svg>\n'


def lines_of(user: User, way: Way) -> Dict[str, str]:
    """The lines of a slip on a page, by their labels."""
    lines = {"In a browser": f"https://{way.page}/ or the code"} if way.page else {"Address": way.server}
    lines["Token"] = in_groups(user.token)
    if way.fingerprint:
        lines["Fingerprint"] = f"{in_groups(way.fingerprint[:DIGITS_TYPED])} ({in_groups(way.fingerprint[DIGITS_TYPED:])})"
    if way.page:
        lines["The browser warns"] = "go on if the SHA-256 of the certificate is the fingerprint"
    lines["Or once" if way.page else "Once"] = "pip install clients/python"
    lines["Then"] = f"python3 -m ljclient {way.server} {user.name}{way.options()}"
    return lines


def section_of(user: User, way: Way) -> str:
    rows = "".join(f"<p>{word}: <code>{unbroken(text)}</code></p>\n" for word, text in lines_of(user, way).items())
    return f"<section>\n{drawn_code(code_text(user, way))}<h2>{html.escape(user.name)}</h2>\n{rows}</section>\n"


def unbroken(text: str) -> str:
    """Words as HTML, with line breaks only between them: not at the hyphens of options."""
    return " ".join(f"<span>{html.escape(word)}</span>" for word in text.split(" "))


def page_of(users: Sequence[User], way: Way) -> str:
    """A page of HTML with all slips, two beside each other."""
    head = f'<!DOCTYPE html>\n<html lang="en">\n<meta charset="utf-8">\n<title>Slips</title>\n<style>\n{STYLE}</style>\n<main>\n'
    return head + "".join(section_of(user, way) for user in users) + "</main>\n</html>\n"


def text_of_slips(users: Sequence[User], way: Way) -> str:
    return "\n".join(slip_of(user, way) for user in users)


class Slips:
    """The files with the slips of all users: a text, a page beside it, and a PDF if asked for."""

    def __init__(self, text: str, has_pdf: bool):
        """Raises ValueError if `text` has the ending of a page or a PDF."""
        self.text = text
        root, ending = os.path.splitext(text)
        self.page, self.pdf = f"{root}.html", f"{root}.pdf"
        if ending in (".html", ".pdf"):
            raise ValueError(f"--slips must be the file of text, such as slips.txt, got {self.text}: {self.page} is written beside it")
        self.has_pdf = has_pdf

    def check(self, may_replace: bool) -> None:
        """Raises Fault if a file exists and may not be replaced."""
        for path in (self.text, self.page):
            if os.path.lexists(path) and not may_replace:
                raise Fault(f"cannot write {path}: it exists already; use --replace, or another file by --slips FILE")

    def write(self, users: Sequence[User], way: Way) -> List[str]:
        """Writes the files that are out of date, for their owner alone. Returns their names. Raises Fault."""
        texts = {self.text: text_of_slips(users, way), self.page: page_of(users, way)}
        changed = {path: text for path, text in texts.items() if text_at(path) != text}
        write_secrets(changed, True)
        written = [*changed]
        if self.has_pdf and module_of("reportlab") is not None and (changed or not os.path.exists(self.pdf)):
            write_pdf(self.pdf, users, way)
            written.append(self.pdf)
        return written

    def missing(self) -> List[str]:
        """Texts that say what the slips lack, and what to install."""
        no_pdf = [NO_PDF.format(self.pdf, self.page)] if self.has_pdf and module_of("reportlab") is None else []
        return [NO_CODES] * (module_of("qrcode") is None) + no_pdf


def text_at(path: str) -> Optional[str]:
    """The text of a file that its owner alone can read, or None."""
    try:
        if os.stat(path).st_mode & 0o077:
            return None
        return pathlib.Path(path).read_text(encoding="utf-8")
    except (OSError, ValueError):
        return None


def write_pdf(path: str, users: Sequence[User], way: Way) -> None:
    """Writes the slips as a PDF of A4, eight on a page. Raises Fault."""
    canvas = importlib.import_module("reportlab.pdfgen.canvas")
    width, height = importlib.import_module("reportlab.lib.pagesizes").A4
    size = ((width - 2 * MARGIN) / COLUMNS, (height - 2 * MARGIN) / ROWS)
    try:
        with open(path, "wb", opener=lambda name, flags: os.open(name, flags, 0o600)) as file:
            os.fchmod(file.fileno(), 0o600)
            sheet = canvas.Canvas(file, pagesize=(width, height))
            for number, user in enumerate(users):
                at = number % (COLUMNS * ROWS)
                if number and not at:
                    sheet.showPage()
                x, y = MARGIN + at % COLUMNS * size[0], height - MARGIN - (at // COLUMNS + 1) * size[1]
                draw_slip(sheet, (x, y, *size), user, way)
            sheet.save()
    except OSError as error:
        raise Fault(f"cannot write {path}: {error.strerror}") from error


def draw_slip(sheet: Any, box: Sequence[float], user: User, way: Way) -> None:
    """Draws a slip into a box of a page: left, bottom, width and height, in points."""
    left, bottom, width, height = box
    sheet.setDash(3, 3)
    sheet.rect(left, bottom, width, height)
    sheet.setDash()
    text = sheet.beginText(left + 8, bottom + height - 18)
    text.setFont("Helvetica-Bold", 13)
    text.textLine(user.name)
    size, most = (7, 40) if way.page else (8, 34)
    for word, said in lines_of(user, way).items():
        text.setFont("Helvetica", size)
        text.textLine(f"{word}:")
        text.setFont("Courier", size)
        text.textLines([f"  {piece}" for piece in pieces(said, most)])
    sheet.drawText(text)
    draw_code(sheet, left + width - 80, bottom + height - 80, code_text(user, way))


def pieces(text: str, most: int = 34) -> List[str]:
    """A line in pieces that fit, cut at blanks."""
    lines = [""]
    for word in text.split(" "):
        if lines[-1] and len(lines[-1]) + len(word) >= most:
            lines.append("")
        lines[-1] += (" " if lines[-1] else "") + word
    return lines


def draw_code(sheet: Any, left: float, bottom: float, text: str) -> None:
    """Draws a QR code of 72 points, if it can be made."""
    matrix = matrix_of(text) or []
    dark = [(x, y) for y, row in enumerate(matrix) for x, is_dark in enumerate(row) if is_dark]
    for x, y in dark:
        side = 72 / len(matrix)
        sheet.rect(left + x * side, bottom + 72 - (y + 1) * side, side, side, stroke=0, fill=1)
