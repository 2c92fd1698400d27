"""Where the parts of the repository are."""
from pathlib import Path

TOP = Path(__file__).resolve().parents[2]
SCENARIOS, EXAMPLES, CRATES, DRIVERS = (
    TOP / it for it in ("scenarios", "examples", "crates", "drivers")
)
# The folders that hold scenarios, and the pages that tell some.
ROOTS = SCENARIOS, EXAMPLES
TUTORIAL, FAULTS, COURSE = (TOP / "docs" / f"{it}.md" for it in ("TUTORIAL", "FAULTS", "COURSE"))
PAGES = TUTORIAL, FAULTS, COURSE
DATA = TOP / "checks/data"
