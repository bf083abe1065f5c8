"""What the tests share: programs, sessions, HTTP, SQLite, faults, and the test case that counts its checks."""
from __future__ import annotations

from typing import Any

# A value of JSON, as Python's library reads and writes it.
Json = Any
