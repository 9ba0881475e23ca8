"""Successive connections to one server, where some fail as in tests/fail_streams.c."""
from operator import attrgetter
from typing import Any, Dict

import pytest
from shared import shims
from shared.served import Servers
from visits import SERIES, USERS, Series, has_failing


@pytest.mark.parametrize("series", SERIES, ids=attrgetter("name"))
def test_connections_one_after_the_other(serve: Servers, request: pytest.FixtureRequest, series: Series) -> None:
    streams: Dict[str, Any] = {}
    if has_failing(series):
        words = " ".join(visit.failing for visit in series.visits)
        streams["env"] = shims.variables(request.getfixturevalue("fail_streams"), FAILING_CONNECTIONS=words)
    server = serve(USERS, len(series.visits), **streams)
    for number, visit in enumerate(series.visits, 1):
        client = server.connect()
        client.send(visit.said)
        if not visit.failing.startswith("r"):
            client.half_close()
        assert client.rest() == visit.told, f"connection {number}"
        client.close()
    server.finish(series.tiles)
