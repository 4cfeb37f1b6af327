"""Dataclasses that take little time to load: `dataclass`, `field`, `replace` and `asdict` as the module dataclasses has them, and no more.

That module reads a third of what a view needs, before anything is done. A type checker sees the module itself.
"""
from __future__ import annotations

TYPE_CHECKING = False
if TYPE_CHECKING:
    from dataclasses import asdict, dataclass, field, replace

__all__ = ["asdict", "dataclass", "field", "replace"]


if not TYPE_CHECKING:

    class _Factory:
        """What makes the default of a field anew each time."""

        def __init__(self, make):
            self.make = make

    def field(*, default_factory):
        """Returns the default of a field that is made anew for each object."""
        return _Factory(default_factory)

    def dataclass(cls=None, *, frozen=False):
        """Gives a class what the module dataclasses gives it: objects made of their fields, compared by them, and shown by them."""
        return (lambda it: _made(it, frozen)) if cls is None else _made(cls, frozen)

    def replace(record, **fields):
        """Returns the record with some fields changed."""
        return type(record)(**{**{name: getattr(record, name) for name in record._fields}, **fields})

    def asdict(record):
        """Returns the fields of a record by their names, and of the records in it too."""
        return {name: _plain(getattr(record, name)) for name in record._fields}

    def _plain(value):
        if hasattr(type(value), "_is_record"):
            return asdict(value)
        if isinstance(value, (list, tuple)):
            return type(value)(map(_plain, value))
        return {key: _plain(it) for key, it in value.items()} if isinstance(value, dict) else value

    def _made(cls, frozen):
        defaults = dict(getattr(cls, "_defaults", {}))
        names = list(getattr(cls, "_fields", ()))
        for name, hint in cls.__annotations__.items():
            if "ClassVar" in str(hint):
                continue
            names += [name] if name not in names else []
            if name in vars(cls):
                defaults[name] = vars(cls)[name]
                if isinstance(defaults[name], _Factory):
                    delattr(cls, name)
        words = ", ".join(f"{name}=_defaults[{name!r}]" if name in defaults else name for name in names)
        lines = [f"def __init__(self, {words}):", " to = self.__dict__"]
        for name in names:
            is_made = isinstance(defaults.get(name), _Factory)
            lines.append(f" to[{name!r}] = {name}.make() if {name} is _defaults[{name!r}] else {name}" if is_made else f" to[{name!r}] = {name}")
        made = {"_defaults": defaults}
        exec("\n".join(lines), made)
        made["__init__"].__qualname__ = f"{cls.__qualname__}.__init__"
        cls._fields, cls._defaults, cls._is_record = tuple(names), defaults, True
        cls.__init__, cls.__eq__, cls.__repr__ = made["__init__"], _equal, _shown
        cls.__hash__ = _hash if frozen else None
        if frozen:
            cls.__setattr__ = cls.__delattr__ = _frozen
        return cls

    def _equal(self, other):
        if type(self) is not type(other):
            return NotImplemented
        return all(getattr(self, name) == getattr(other, name) for name in self._fields)

    def _hash(self):
        return hash(tuple(map(self.__dict__.get, self._fields)))

    def _shown(self):
        return f"{type(self).__qualname__}({', '.join(f'{name}={getattr(self, name)!r}' for name in self._fields)})"

    def _frozen(self, name, *value):
        raise AttributeError(f"cannot assign to field {name!r}")
