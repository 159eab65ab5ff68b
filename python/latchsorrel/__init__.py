"""What `ga144 check` finds of a program, and sessions of `ga144 explore`, as data (docs/JSON.md)."""

from .report import CheckError, End, Event, Expectation, Never, NodeEnd, Refusal, Report, Same, check, report_of
from .session import Answer, Refused, Session, SessionError

__all__ = [
    "Answer", "CheckError", "End", "Event", "Expectation", "Never", "NodeEnd", "Refusal", "Refused", "Report", "Same", "Session", "SessionError",
    "check", "report_of",
]
