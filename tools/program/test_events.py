"""Tests that a row which takes more is found."""

from tools.common.testing import Table
from tools.program import events


class Risen(Table):
    def test_rows(self) -> None:
        self.compare(
            lambda row, count: events.risen({row: count}, {"put": 1000.0, "put in threads": 1000.0}), ("the same", "put", 1000.0, []), ("fewer", "put", 1.0, []),
            ("two percent", "put", 1019.0, []), ("more than two", "put", 1021.0, ["events: put: 1021, before 1000"]), ("a new row", "new", 5.0, ["events: new: 5, before 0"]),
            ("two in threads", "put in threads", 1149.0, []), ("too many in threads", "put in threads", 1151.0, ["events: put in threads: 1151, before 1000"]),
        )
