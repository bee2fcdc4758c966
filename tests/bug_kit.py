"""How bugs are planted in the model of a running site, and all of them by name, for tests of ./conformance."""

from functools import partial
from importlib import import_module

# What plants a bug, by the bug's name. Each is given the limits of connections, which it may change.
BUGS = {}

# Who has bugs to plant.
MODULES = [
    "site_bugs", "text_bugs", "rule_bugs", "edge_bugs", "traffic_bugs", "link_bugs", "stream_bugs", "end_bugs", "clock_bugs", "word_bugs",
    "restart_bugs", "key_bugs",
]  # fmt: skip

# The module that has a bug, by the bug's name.
MODULE_OF = {}


def all_bugs():
    """All of them, by their names."""
    for module in MODULES:
        import_module(module)
        for name in BUGS:
            MODULE_OF.setdefault(name, module)
    return BUGS


def replaces(owner, name):
    """Registers a function as a bug that takes the place of a method or property, which it is given as `right`."""
    original = owner.__dict__[name]

    def register(wrong):
        def plant(limits):
            if isinstance(original, property):
                planted = property(lambda self: wrong(partial(original.fget, self), self))
            else:
                planted = lambda self, *values, **named: wrong(partial(original, self), self, *values, **named)  # noqa: E731
            setattr(owner, name, planted)

        BUGS[wrong.__name__] = plant
        return wrong

    return register


def sets(owner, name, value):
    """A bug that gives a name of a class or module another value."""

    def plant(limits):
        setattr(owner, name, value)

    return plant


def closes_with(site, right, heir, change):
    """Closes a site, but for its last entry, whose moves are changed."""
    said = right(heir)
    last = site.log.pop()
    site.append(*change(last))
    return said


def limit(name, value):
    """A bug that changes a limit of connections."""
    return lambda limits: setattr(limits, name, value)
