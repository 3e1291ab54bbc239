"""The Rattle kit that is on the path."""

import subprocess
from pathlib import Path


def kit():
    """Where the kit stands."""
    return Path(subprocess.run(["rt", "doc"], capture_output=True, text=True, check=True).stdout.strip()).parent
