"""The objects of a run: which calls made them, who owns them, where they were used, and which call ended them.

A skipped call makes and ends nothing. A creation gives an object of its own; a retrieval gives the object of its owner
and place, so that two names may stand for one queue. An object ends with what owns it (Vulkan 1.3 specification,
chapter Fundamentals, Object Lifetime)."""
from dataclasses import dataclass, field

from tables import Parameter
from traces import Call, guessed_type


@dataclass(slots=True)
class Object:
    """An object, by its place in the list."""

    at: int
    type: str
    owner: int | None
    created: bool
    born_by: int
    born_at: int
    names: list[str] = field(default_factory=list)
    children: list[int] = field(default_factory=list)
    ended_by: int | None = None
    ended_at: int | None = None
    uses: list[int] = field(default_factory=list)

    @property
    def alive(self) -> bool:
        return self.ended_by is None


class Objects:
    """The objects up to an event."""

    def __init__(self) -> None:
        self.all: list[Object] = []
        self.of_name: dict[str, int] = {}
        self.kept: dict[tuple[int | None, str, str], int] = {}
        self.owners: dict[int, Object | None] = {}
        self.drivers = 0

    def named(self, name: str) -> Object | None:
        """The object for which a name stands, alive or not."""
        at = self.of_name.get(name)
        return None if at is None else self.all[at]

    def living(self, name: str) -> Object | None:
        """The living object for which a name stands."""
        found = self.named(name)
        return found if found and found.alive else None

    def device(self, found: Object) -> int | None:
        """The device to which an object belongs."""
        at: int | None = found.at
        while at is not None and self.all[at].type != "Device":
            at = self.all[at].owner
        return at

    def enter(self, call: Call) -> None:
        """A begin: what it uses, and, where it isn't skipped, what it ends."""
        used = {self.of_name[n] for names in call.arguments for n in names if n in self.of_name}
        for at in sorted(used):
            self.all[at].uses.append(call.number)
        if call.skipped:
            return
        if call.results:
            self.owners[call.number] = self._owner(call)
        for name in _ended(call):
            found = self.living(name)
            if found and call.row and call.row.effect.kind == "reset":
                for child in list(found.children):
                    self._end(child, call)
            elif found and found.created:
                self._end(found.at, call)

    def _end(self, at: int, call: Call) -> None:
        """Ends an object and all that it owns, at any depth."""
        waiting = [at]
        while waiting:
            found = self.all[waiting.pop()]
            if found.alive:
                found.ended_by, found.ended_at = call.number, call.begin
                waiting.extend(found.children)

    def leave(self, call: Call, told: int | None) -> int:
        """A return: how many of the call's results are now born. `told` is what the text says of a command that the
        table hasn't."""
        row = call.row
        if call.skipped or not call.results or not _succeeds(call):
            return 0
        owner = self.owners.pop(call.number, None)
        if call.command != "vkCreateInstance" and (owner is None or not owner.alive):
            return 0
        kind = row.effect.type if row else guessed_type(call.command)
        born = call.results if row else call.results[:told or 0]
        if kind == "PhysicalDevice":
            born = born[:self.drivers]
        created = not row or row.effect.kind == "create"
        for place, name in enumerate(born):
            key = call.payload if kind == "Queue" else str(place)
            whose = owner.at if owner else None
            self._bear(name, Object(len(self.all), kind, whose, created, call.number, call.end), key)
        return len(born)

    def _bear(self, name: str, made: Object, key: str) -> None:
        """A name stands for a new object, or for the retrieved one that is there."""
        there = None if made.created else self.kept.get((made.owner, made.type, key))
        if there is None:
            self.all.append(made)
            if made.owner is not None:
                self.all[made.owner].children.append(made.at)
            if not made.created:
                self.kept[made.owner, made.type, key] = made.at
        found = made if there is None else self.all[there]
        found.names.append(name)
        self.of_name[name] = found.at

    def _owner(self, call: Call) -> Object | None:
        """The object that owns what a call makes: what the argument stands for at the begin."""
        effect = call.row.effect if call.row else None
        at = effect.owner if effect else 0
        if at is None or not call.arguments:
            return None
        found = self.named(call.arguments[at][0])
        if found and effect and effect.owners_owner:
            return None if found.owner is None else self.all[found.owner]
        return found

    def failures(self, call: Call, checked: bool) -> list[str]:
        """The rules on lifetimes that fail at a call, as far as the table has marks: those of the loader, and where
        `checked` those of a part that checks lifetimes. A text from which reports are left out says of some calls
        nothing else."""
        row = call.row
        if not call.arguments:
            return []
        if not self.living(call.arguments[0][0]):
            return ["parameter"]
        if not checked:
            return []
        if not row:
            dead = [n for names in call.arguments for n in names if n != "null" and not self.living(n)]
            return ["parameter" for _ in dead]
        pairs = zip(row.parameters, call.arguments)
        rules = [rule for p, names in pairs for name in names for rule in self._fails(call, p, name)]
        first = self.living(call.arguments[0][0])
        if call.command in ("vkDestroyDevice", "vkDestroyInstance") and first:
            owned = [self.all[c] for c in first.children]
            rules += ["children"] if any(c.alive and c.created for c in owned) else []
        return rules

    def _fails(self, call: Call, parameter: Parameter, name: str) -> list[str]:
        """The rules that fail at one place of an argument."""
        found = self.living(name)
        if found is None:
            return [] if name == "null" and parameter.optional else ["parameter"]
        if parameter.same_device:
            first = self.living(call.arguments[0][0])
            if first is None or self.device(first) != self.device(found):
                return ["parent"]
        if parameter.owned_by is not None:
            owner = self.named(call.arguments[parameter.owned_by][0])
            if owner is None or found.owner != owner.at:
                return ["parent"]
        return []


def _succeeds(call: Call) -> bool:
    """Whether what a call makes is born. A list that was too short for all that there is holds what it has."""
    many = call.row is not None and call.row.effect.kind == "retrieve" and call.row.effect.many
    return call.code in ("void", "VK_SUCCESS") or (many and call.code == "VK_INCOMPLETE")


def _ended(call: Call) -> list[str]:
    """The names in the parameter that a call ends or resets."""
    if call.row:
        target = call.row.effect.target
        return [] if target is None else call.arguments[target]
    return call.arguments[-1] if call.command.startswith("vkDestroy") and call.arguments else []
