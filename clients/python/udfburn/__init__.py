"""A client of `udfburn` and `udfburnd`: files and folders are put on a volume once and for certain.

`Client` has the operations, `udfburn.protocol` each frame, request, query, answer, fault and limit as a type,
`udfburn.errors` each refusal by its name.
"""

from typing import TYPE_CHECKING

if TYPE_CHECKING:
    from .base import errors as errors
    from .base.errors import UdfburnError as UdfburnError
    from .trees.client import Client as Client

__version__ = "0.3.0"
"""The version of the programs, the client and the packages: this is its one place."""
__all__ = ["Client", "UdfburnError", "errors", "__version__"]

if not TYPE_CHECKING:  # A checker refuses other names.

    def __getattr__(name: str) -> object:
        """The public names are loaded when they are first used: most commands need few modules."""
        if name == "Client":
            from .trees.client import Client

            return Client
        if name in ("UdfburnError", "errors"):
            from .base import errors

            return errors if name == "errors" else errors.UdfburnError
        raise AttributeError(f"module {__name__!r} has no attribute {name!r}")
