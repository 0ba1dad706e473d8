"""What the command table says of a command: its parameters with their marks, what it does to objects, and whether it
answers a code.

`commands.py` has the rows; `generate.py` makes that file from the replayer's table, so that both have the same."""
from dataclasses import dataclass


@dataclass(frozen=True, slots=True)
class Parameter:
    """A parameter that takes an object, or a list of them."""

    name: str
    type: str
    many: bool = False
    optional: bool = False
    written: bool = False
    same_device: bool = False
    owned_by: int | None = None


@dataclass(frozen=True, slots=True)
class Effect:
    """What a command does: `create` or `retrieve` objects of a type, `destroy`, `free` or `reset` those of a
    parameter, or `none`.

    The owner of what it makes is the object of parameter `owner`, that object's own owner where `owners_owner` is set,
    or nobody."""

    kind: str = "none"
    type: str = ""
    many: bool = False
    owner: int | None = None
    owners_owner: bool = False
    target: int | None = None

    @property
    def makes(self) -> bool:
        """Whether the command has results."""
        return self.kind in ("create", "retrieve")


@dataclass(frozen=True, slots=True)
class Row:
    """A command of the table."""

    name: str
    parameters: tuple[Parameter, ...]
    effect: Effect
    answers_code: bool
