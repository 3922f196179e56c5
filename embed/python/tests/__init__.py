"""The tests of the package. They use the sources that lie here, whether the package is installed or not."""

import sys
from pathlib import Path

sys.path.insert(0, str(Path(__file__).resolve().parents[1] / "src"))
