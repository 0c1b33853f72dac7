"""The errors of H3's functions: an exception for each number of H3's table, with h3-py's names."""

from typing import Dict, Optional, Type

__all__ = [
    "H3BaseException",
    "H3CellInvalidError",
    "H3DirEdgeInvalidError",
    "H3DomainError",
    "H3DuplicateInputError",
    "H3FailedError",
    "H3GridNavigationError",
    "H3MemoryAllocError",
    "H3MemoryBoundsError",
    "H3MemoryError",
    "H3NotNeighborsError",
    "H3PentagonError",
    "H3ResDomainError",
    "H3ResMismatchError",
    "H3ValueError",
    "UnknownH3ErrorCode",
]


class H3BaseException(Exception):
    """An error of H3: the base class of the others.

    Attributes
    ----------
    number : int or None
        Its number in H3's table; None for a base class, and for a number that the table does not have.
    name : str or None
        Its name there, as "E_CELL_INVALID"; None as of `number`.
    """

    number: Optional[int] = None
    name: Optional[str] = None


class H3MemoryError(H3BaseException, MemoryError):
    """An error about memory."""


class H3ValueError(H3BaseException, ValueError):
    """An error about a value that was passed."""


class H3GridNavigationError(H3BaseException, RuntimeError):
    """An error on the way through the grid."""


class UnknownH3ErrorCode(H3BaseException):
    """A number that no other class of this module has."""


class H3FailedError(H3GridNavigationError, ValueError):
    """A text does not parse as an index, or a table was refused. h3-py has it among the errors of the grid."""

    number, name = 1, "E_FAILED"


class H3DomainError(H3ValueError):
    """A number is out of range: a number of steps, or the position of a descendant."""

    number, name = 2, "E_DOMAIN"


class H3ResDomainError(H3ValueError):
    """A number is not a resolution, or not one that the function takes for this cell."""

    number, name = 4, "E_RES_DOMAIN"


class H3CellInvalidError(H3ValueError):
    """An index is not a valid cell."""

    number, name = 5, "E_CELL_INVALID"


class H3DirEdgeInvalidError(H3ValueError):
    """An index is not a valid directed edge."""

    number, name = 6, "E_DIR_EDGE_INVALID"


class H3PentagonError(H3GridNavigationError):
    """A pentagon is in the way."""

    number, name = 9, "E_PENTAGON"


class H3DuplicateInputError(H3ValueError):
    """Two cells overlap: a cell is given twice, or with an ancestor of it."""

    number, name = 10, "E_DUPLICATE_INPUT"


class H3NotNeighborsError(H3GridNavigationError):
    """The cells are not neighbors."""

    number, name = 11, "E_NOT_NEIGHBORS"


class H3ResMismatchError(H3ValueError):
    """The resolutions do not fit."""

    number, name = 12, "E_RES_MISMATCH"


class H3MemoryAllocError(H3MemoryError):
    """There is no memory for a result."""

    number, name = 13, "E_MEMORY_ALLOC"


class H3MemoryBoundsError(H3MemoryError):
    """A buffer is too short."""

    number, name = 14, "E_MEMORY_BOUNDS"


_BY_NUMBER: Dict[Optional[int], Type[H3BaseException]] = {
    kind.number: kind
    for kind in (
        H3FailedError,
        H3DomainError,
        H3ResDomainError,
        H3CellInvalidError,
        H3DirEdgeInvalidError,
        H3PentagonError,
        H3DuplicateInputError,
        H3NotNeighborsError,
        H3ResMismatchError,
        H3MemoryAllocError,
        H3MemoryBoundsError,
    )
}


def error_of(number: int, about: Optional[str] = None) -> H3BaseException:
    """The exception for a number of H3's table, with what it is about."""
    kind = _BY_NUMBER.get(number)
    if kind is None:
        return UnknownH3ErrorCode(f"error {number}")
    text = f"error {kind.number}: {kind.name}"
    return kind(text if about is None else f"{text}: {about}")


def error_at(number: int, index: int, res: object) -> H3BaseException:
    """The exception of a function of an index and a resolution."""
    return error_of(number, f"{index:x} at resolution {res}")
