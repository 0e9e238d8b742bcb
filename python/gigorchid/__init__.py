"""Gigorchid for Python: freeway metering plans that are proved.

`calls` has one function for every call of the proved library, on numpy arrays. `Project` reads a folder of tables, and simulates, checks,
and converts its plans through these calls, `compare` says whether two do the same on the road, `plots` draws maps of their records as axes of
matplotlib; a `Refusal` says where the library refuses, and a `Fault` which cell of a table is faulty. The library judges: this package repeats
no rule of the model.
"""

from .refusals import Refusal

__version__ = "0.7.0"

__all__ = ["Fault", "Plan", "Project", "Record", "Refusal", "__version__", "calls", "compare", "plots"]

_LATER = {"Fault": "sheets", "Plan": "plans", "Project": "project", "Record": "records"}
_MODULES = ("calls", "compare", "plots")


def __getattr__(name: str) -> object:
    """Loads what reads tables only where it is used: the bindings themselves need numpy alone."""
    from importlib import import_module

    if name in _MODULES:
        return import_module(f".{name}", __name__)
    if name not in _LATER:
        raise AttributeError(f"module {__name__!r} has no attribute {name!r}")
    return getattr(import_module(f".{_LATER[name]}", __name__), name)


def __dir__() -> list[str]:
    """What the package has for its users."""
    return sorted([*globals(), *__all__])
