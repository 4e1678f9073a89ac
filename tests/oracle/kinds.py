"""The kinds of cases by name."""
from oracle.machine_kinds import Assembly, Contexts, Memory, Objects, Peep, Reports, Runs, Schedules, Words
from oracle.compile_kinds import Banks, Compiled, Counts, Placements, Traces, Weights
from oracle.source_kinds import Generated, Sizes, Sources, Texts, Types

KINDS = {
    "sources": Sources(),
    "types": Types(),
    "texts": Texts(),
    "sizes": Sizes(),
    "generated": Generated(),
    "compiled": Compiled(),
    "banks": Banks(),
    "placements": Placements(),
    "weights": Weights(),
    "counts": Counts(),
    "trace": Traces(),
    "runs": Runs(),
    "memory": Memory(),
    "objects": Objects(),
    "assembly": Assembly(),
    "peep": Peep(),
    "contexts": Contexts(),
    "schedules": Schedules(),
    "reports": Reports(),
    "words": Words(),
}
