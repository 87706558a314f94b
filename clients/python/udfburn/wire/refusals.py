"""The exceptions of answers and outcomes that refuse."""

from __future__ import annotations

from typing import Type, TypeVar

from ..base.errors import MISSES, REFUSALS, Refused
from ..protocol import Answer, BadAnswer, Bare, Code, Data, Names, Node, Query, Rename, printed, show
from ..protocol.units import Commit
from .operations import Outcome

Answered = TypeVar("Answered", Data, Names, Node)


def commit_of(outcome: Outcome) -> Commit:
    """The commit of an operation that was done, or its refusal."""
    if outcome.code is Code.DONE:
        return outcome.commit
    raise refusal(outcome)


def refusal(outcome: Outcome) -> Refused:
    """The exception of an outcome that is a refusal."""
    operation = outcome.operation
    at_target = outcome.code in (Code.NO_PARENT, Code.EXISTS, Code.DIRECTORY_FULL)
    path = operation.to if operation.kind is Rename and at_target else operation.path
    return REFUSALS[outcome.code](show(path), outcome.commit)


def met(query: Query, answer: Answer) -> Answer:
    """The answer, or the exception of its refusal."""
    if isinstance(answer, Bare):
        raise MISSES[answer.code](show(query.path))
    return answer


def expected(kind: Type[Answered], query: Query, answer: Answer) -> Answered:
    """The answer to a query, of this kind; or the exception that its refusal is."""
    answer = met(query, answer)
    if not isinstance(answer, kind):
        raise BadAnswer(f"{answer!r} is no answer to the query of {printed(query.path)}")
    return answer


__all__ = ["commit_of", "expected", "met", "refusal"]
