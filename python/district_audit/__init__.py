"""The district plan auditor for Python: preparation of dual graphs, calls of the installed
program, and its reports as values.

It needs Python alone; networkx, pandas, matplotlib and tqdm are used where they are installed.
"""
from . import compactness, scores, trace_pictures, warnings
from .calls import check, make, plans, run
from .districts import District
from .effect import Effect
from .elections import ElectionReports
from .errors import (
    ArgumentRefused,
    AuditError,
    CheckpointRefused,
    CheckpointUnreadable,
    FrozenWalk,
    GraphChanged,
    GraphRefused,
    HeadNotCompared,
    Interrupted,
    MemoryRefused,
    MissingExtra,
    NotProved,
    PrepareRefused,
    ProgramFailed,
    ProgramMissing,
    ReadFault,
    ReportRefused,
    SaveFault,
    TypeRefused,
    ValueRefused,
    WordsRefused,
    WorkLeft,
    WriteFault,
    WrongProgram,
)
from .exhibit import exhibit_plans
from .limits import LimitReports, over_limits
from .geography import MapGraph, MapReport, graph_from
from .manifest import Manifest, ManifestRefused
from .outlier import OutlierTest, RankTest, outlier_test, rank_test
from .pilot import EndsTable, Pilot, compare_ends, pilot
from .preparing import Change, Prepared, prepare
from .report import (
    Ends,
    Pair,
    PlanCheck,
    Report,
    Rules,
    Serial,
    Setting,
    Shift,
    Source,
    Start,
    Stop,
    Walk,
)
from .results import NamedReports, PlanReports
from .study import audit_to_file, load_study
from .trace_text import TraceHead, TraceRefused
from .traces import Sample, StaleSample, Trace, read_trace, trace
from .verifying import verify
from .warnings import MapWarning
from .weighing import WeightChoice, choose_weight
from .words import key_of

__version__ = "0.3.0"

__all__ = [
    "ArgumentRefused",
    "AuditError",
    "Change",
    "CheckpointRefused",
    "CheckpointUnreadable",
    "District",
    "Effect",
    "ElectionReports",
    "Ends",
    "EndsTable",
    "FrozenWalk",
    "GraphChanged",
    "GraphRefused",
    "HeadNotCompared",
    "Interrupted",
    "LimitReports",
    "Manifest",
    "ManifestRefused",
    "MapGraph",
    "MapReport",
    "MapWarning",
    "MemoryRefused",
    "MissingExtra",
    "NamedReports",
    "NotProved",
    "OutlierTest",
    "Pair",
    "Pilot",
    "PlanCheck",
    "PlanReports",
    "PrepareRefused",
    "Prepared",
    "ProgramFailed",
    "ProgramMissing",
    "RankTest",
    "ReadFault",
    "Report",
    "ReportRefused",
    "Rules",
    "Sample",
    "SaveFault",
    "Serial",
    "Setting",
    "Shift",
    "Source",
    "StaleSample",
    "Start",
    "Stop",
    "Trace",
    "TraceHead",
    "TraceRefused",
    "TypeRefused",
    "ValueRefused",
    "Walk",
    "WeightChoice",
    "WordsRefused",
    "WorkLeft",
    "WriteFault",
    "WrongProgram",
    "__version__",
    "audit_to_file",
    "check",
    "choose_weight",
    "compactness",
    "compare_ends",
    "exhibit_plans",
    "graph_from",
    "key_of",
    "load_study",
    "make",
    "outlier_test",
    "over_limits",
    "pilot",
    "plans",
    "prepare",
    "rank_test",
    "read_trace",
    "run",
    "scores",
    "trace",
    "trace_pictures",
    "verify",
    "warnings",
]
