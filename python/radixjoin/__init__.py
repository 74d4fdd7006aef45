"""SQL-92's joined table of frames, rows and CSV files, by the proved program `radixjoin`.

    import radixjoin
    joined = radixjoin.join(people, cities, using="id", how="left")

`join` takes DataFrames, rows, open files and paths, and gives what came in; `stats` counts, and `suggest_types` reads types from a file's
cells. A fault is a `Fault`, of which there is a class for each exit status of the program. `radixjoin.cluster` joins what is larger than
memory, on this machine or over a Dask cluster.
"""
from .faults import ClauseFault, DeviceFault, ExpectationFault, Fault, InputFault, LineFault, MemoryFault
from .joining import Stats, join, stats
from .programs import ProgramNotFound
from .rows import Rows
from .suggesting import suggest_types

__all__ = [
    "ClauseFault",
    "DeviceFault",
    "ExpectationFault",
    "Fault",
    "InputFault",
    "LineFault",
    "MemoryFault",
    "ProgramNotFound",
    "Rows",
    "Stats",
    "join",
    "stats",
    "suggest_types",
]
__version__ = "1.0.0"
