"""Finds and loads the shared library, and declares its functions as johikape.h does."""

from __future__ import annotations

import ctypes
import os
from ctypes import c_bool, c_double, c_size_t, c_uint8, c_uint32, c_void_p
from types import SimpleNamespace
from typing import Any

NAME = "libjohikape.so"


class Ends(ctypes.Structure):
    """`johikape_interval`, which is passed and returned by value."""

    _fields_ = [("lo", c_double), ("hi", c_double)]


# A list is a pointer and its count. Pointers are untyped here: `_buffers` checks the items.
_LIST = [c_void_p, c_size_t]
_BOX = [c_void_p, c_uint8]

_SIGNATURES = {
    "evaluate_by_position": (c_uint32, _LIST * 7),
    "evaluate_by_name": (c_uint32, _LIST * 8),
    "find_name": (c_bool, _LIST + [c_uint32, c_void_p, c_void_p]),
    "filter_bbox": (c_uint32, _LIST * 3 + [c_uint32, c_void_p, c_void_p]),
    "merge": (c_uint32, [c_void_p] * 6 + [c_uint32, c_uint32]),
    "fold": (c_uint32, _LIST * 4 + [c_void_p] * 4),
    "fee_of_record": (c_uint32, [c_void_p] * 2 + [c_uint32] * 5 + [c_void_p]),
    "fee_of_sizes": (c_uint32, _LIST * 2 + [c_uint32] * 3 + [c_void_p]),
    "box_intersects": (c_uint32, _BOX * 2),
    "box_contains": (c_uint32, _BOX * 2),
    "box_merge": (c_uint32, [c_void_p, c_void_p] + _BOX),
    "box_intersection": (c_uint32, [c_void_p, c_void_p] + _BOX),
    "box_expand_by": (c_uint32, [c_void_p, c_void_p, c_double]),
    "box_to_geoparquet": (c_uint32, _BOX + [c_void_p, c_void_p]),
    "box_from_geoparquet": (c_uint32, _LIST + [c_void_p, c_void_p]),
    "box_from_wkb": (c_uint32, _LIST + [c_void_p] * 3),
    "interval_intersection": (Ends, [Ends, Ends]),
    "x_wraps": (c_bool, [Ends]),
    "x_intersection": (c_uint32, [Ends, Ends, c_void_p, c_void_p]),
}

# What plain intervals and x have alike.
_OF_INTERVALS = {
    "accepts": (c_bool, [Ends, c_double]),
    "intersects": (c_bool, [Ends, Ends]),
    "contains": (c_bool, [Ends, Ends]),
    "is_empty": (c_bool, [Ends]),
    "width": (c_double, [Ends]),
    "mid": (c_double, [Ends]),
    "merge": (Ends, [Ends, Ends]),
    "merge_value": (Ends, [Ends, c_double]),
    "expand_by": (Ends, [Ends, c_double]),
}


def find() -> str:
    """The path of the library: JOHIKAPE_LIBRARY, else beside the package, else the checkout's."""
    named = os.environ.get("JOHIKAPE_LIBRARY")
    if named:
        return os.path.abspath(named)
    package = os.path.dirname(os.path.realpath(__file__))
    checkout = os.path.join(package, "..", "..", "..")
    places = [
        os.path.join(package, NAME),
        os.path.normpath(os.path.join(checkout, "target", "staticlib", NAME)),
    ]
    for place in places:
        if os.path.isfile(place):
            return place
    raise ImportError(
        f"johikape finds no {NAME}: run bindings/build in a checkout, or set JOHIKAPE_LIBRARY to "
        f"the path of one. Looked for {places[0]} and {places[1]}."
    )


def load(path: str) -> Any:
    """The library at the path, with the types of its functions."""
    try:
        library = ctypes.CDLL(path)
    except OSError as error:
        raise ImportError(f"johikape cannot load {path} ({error}): run bindings/build") from error
    signatures = dict(_SIGNATURES)
    for kind in ("interval", "x"):
        signatures.update({f"{kind}_{name}": types for name, types in _OF_INTERVALS.items()})
    for name, (result, arguments) in signatures.items():
        try:
            function = getattr(library, f"johikape_{name}")
        except AttributeError:
            raise ImportError(f"{path} has no johikape_{name}: run bindings/build anew") from None
        function.restype = result
        function.argtypes = arguments
    return library


def of_intervals(kind: str) -> SimpleNamespace:
    """The functions of plain intervals ("interval") or of x ("x"), by the names they have alike."""
    return SimpleNamespace(
        **{name: getattr(library, f"johikape_{kind}_{name}") for name in _OF_INTERVALS}
    )


library = load(find())
