"""What the build writes where the package is installed: where from, and which version."""
from typing import Any

CHECKOUT: Any
VERSION: Any
