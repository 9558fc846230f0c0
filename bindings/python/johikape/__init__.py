"""Johikape: which files of a spatial archive a query may skip.

A file keeps a record of each column: a box over x, y, z and m, a type set, and totals. A filter
held against the records says that the file may match, or that it cannot match and may be skipped.
Here a file of readings on a compost site has two parts, with degrees as m; wanted is what is above
55 degrees in pile six:

>>> from johikape import BoundingBox, Column, Filter, GeoStatistics, fold
>>> tuesday = fold([
...     GeoStatistics(bbox=BoundingBox((12.5, 18.5), (40.5, 44.5), m=(36, 52)), total_points=220),
...     GeoStatistics(bbox=BoundingBox((14, 17), (41, 43), m=(49, 63.5)), total_points=36),
... ])
>>> hot = Filter.intersects(Column(0, 6), BoundingBox((10, 20), (38, 46), m=(55, 120)))
>>> hot.evaluate_by_position([tuesday])
<Evaluation.MAY_MATCH: 1>

`evaluate_by_position`, `evaluate_by_name`, `filter_bbox` and `merge` are methods, and functions of
the same names here. `Records` and `evaluate` read whole tables in buffers, without copying.
`find_name` is the search that each leaf makes by name. `GeoStatistics.fee` and `fee_of_sizes` say
what it costs, at `Rates`, to read files that may match. A zero at an end of what is given is +0, so
two boxes without NaN that are equal have the same bytes.

The work is done by a library in which each function is proved to give what its definition says.
What it refuses is raised as `Refusal`, with a number. No call keeps anything, and other threads run
meanwhile. `python3 -m johikape demo` shows pile six.
"""

from .bounding_box import BoundingBox
from .interval import Interval, WraparoundInterval
from .name_search import NameSearch, find_name
from .records import Records, fold
from .refusal import Refusal
from .spatial_filter import Column, Evaluation, Filter, Tables, evaluate
from .statistics import GeoStatistics
from .tariff import Rates, fee_of_sizes

evaluate_by_position = Filter.evaluate_by_position
evaluate_by_name = Filter.evaluate_by_name
filter_bbox = Filter.filter_bbox
merge = GeoStatistics.merge

__all__ = [
    "BoundingBox",
    "Column",
    "Evaluation",
    "Filter",
    "GeoStatistics",
    "Interval",
    "NameSearch",
    "Rates",
    "Records",
    "Refusal",
    "Tables",
    "WraparoundInterval",
    "evaluate",
    "evaluate_by_name",
    "evaluate_by_position",
    "fee_of_sizes",
    "filter_bbox",
    "find_name",
    "fold",
    "merge",
]
