"""Plans of least cost under rules, with a certificate: models and files for the program `wcspsolve`.

`Model` names choices, rules and costs; `read` reads files of others; `solve`, `kbest` and `rebase` run the program.
docs/MODELLING.md of the repository explains it.
"""

from .formats import Format, read, write
from .formats.text import FormatError
from .model import Model
from .network import FORBIDDEN, ModelError, Network, Plan, Sense, Units, said
from .program import ProgramError
from .report import Bounds, Listing
from .solving import Checked, Result, Word, check, kbest, rebase, solve

__all__ = [
    "FORBIDDEN",
    "Bounds",
    "Checked",
    "Format",
    "FormatError",
    "Listing",
    "Model",
    "ModelError",
    "Network",
    "Plan",
    "ProgramError",
    "Result",
    "Sense",
    "Units",
    "Word",
    "check",
    "kbest",
    "read",
    "rebase",
    "said",
    "solve",
    "write",
]
