"""Passes the link of the page to a browser in a file, since all accounts of a machine can read the command lines of its processes."""
from __future__ import annotations

import html
import os
import shutil
import tempfile
import webbrowser
from pathlib import Path

# It sends a browser to the link at once, without a referrer.
TEXT = """<!doctype html>
<html lang="en">
<meta charset="utf-8">
<meta name="referrer" content="no-referrer">
<meta http-equiv="refresh" content="0; url={link}">
<title>The live view</title>
<p><a href="{link}">Go on to the live view</a></p>
</html>
"""


class LinkFile:
    """A file with a link, in a folder of its own. Only this account can read it. Raises OSError if there is no room."""

    def __init__(self, link: str):
        self._folder = tempfile.mkdtemp(prefix="ljclient-view-")
        self.path = Path(self._folder, "view.html")
        with open(os.open(self.path, os.O_WRONLY | os.O_CREAT | os.O_EXCL, 0o600), "w", encoding="utf-8") as file:
            file.write(TEXT.format(link=html.escape(link)))

    def open(self) -> None:
        """Opens the file in a browser with windows. A browser that would take over the terminal is not used."""
        try:
            browser = webbrowser.get()
        except webbrowser.Error:
            return
        if type(browser) is not webbrowser.GenericBrowser:
            browser.open(self.path.as_uri())

    def remove(self) -> None:
        """Removes the file, if it still exists."""
        shutil.rmtree(self._folder, ignore_errors=True)
