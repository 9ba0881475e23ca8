"""Processes that should end."""
import subprocess
from typing import Tuple, Union

from shared.program import SECONDS


def finished(child: "subprocess.Popen[bytes]") -> Tuple[Union[int, str], bytes]:
    """The exit status and the standard error of a child. It is killed if it does not end in time."""
    status: Union[int, str]
    try:
        status = child.wait(SECONDS)
    except subprocess.TimeoutExpired:
        child.kill()
        child.wait()
        status = "no end"
    assert child.stderr
    return status, child.stderr.read()
