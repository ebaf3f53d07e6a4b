"""Puts the library into the wheel: the shared library that lies in the package, or one compiled of riichi_desk_portable.c.

It serves every Python, so the wheel names no ABI of Python, but one platform: that which PLATFORM names, or the one at hand.
"""

import os
import subprocess
import sysconfig
from pathlib import Path
from typing import Any

from hatchling.builders.hooks.plugin.interface import BuildHookInterface


class LibraryHook(BuildHookInterface):
    def initialize(self, version: str, build_data: dict[str, Any]) -> None:
        root = Path(self.root)
        library = root / "src" / "riichi_desk" / "libriichi_desk.so"
        if not library.is_file():
            compiler = os.environ.get("CC", "cc").split()
            words = ["-O2", "-fPIC", "-shared", f"-I{root}", f"{root}/riichi_desk_portable.c", "-o", f"{library}"]
            subprocess.run([*compiler, *words], check=True)
        at_hand = sysconfig.get_platform().replace("-", "_").replace(".", "_")
        build_data["pure_python"] = False
        build_data["tag"] = f"py3-none-{os.environ.get('PLATFORM', at_hand)}"
