"""What a C compiler can do here."""

import subprocess
import tempfile
from pathlib import Path

# The sanitizers of addresses and of undefined behavior.
SANITIZERS = ["-O1", "-g", "-fsanitize=address,undefined", "-fno-sanitize-recover=all"]


def builds(compiler, flags):
    """Whether a compiler builds a program with these flags that runs."""
    with tempfile.TemporaryDirectory() as folder:
        source, program = Path(folder) / "empty.c", Path(folder) / "empty"
        source.write_text("int main(void) { return 0; }\n")
        try:
            subprocess.run([compiler, *flags, source, "-o", program], capture_output=True, check=True)
            return subprocess.run([program], capture_output=True).returncode == 0
        except (OSError, subprocess.CalledProcessError):
            return False
