"""Makes a container of files with only glibc, a shell and Python, in which commands run, to try a pack as another user does.

It consists of this system's own files, at the places that Debian gives them. To enter it takes the rights of root (chroot).
"""
from __future__ import annotations

import os
import re
import shutil
import subprocess
import tempfile
from typing import Any

SHELL, PYTHON = "/bin/sh", "/usr/bin/python3"


def can_be_made() -> bool:
    """Returns whether the files exist, and this process may enter the container."""
    if os.geteuid() != 0 or not all(os.path.exists(it) for it in (SHELL, PYTHON, "/usr/bin/ldd")):
        return False
    try:
        return subprocess.run([SHELL, "-c", ":"], preexec_fn=lambda: os.chroot("/"), check=False).returncode == 0
    except (OSError, subprocess.SubprocessError):
        return False


class Container:
    """The container's folder, for use in a `with`."""

    def __init__(self) -> None:
        """Starts without a folder: `__enter__` makes it."""
        self.room = tempfile.mkdtemp(prefix="lw-container-")

    def __enter__(self) -> Container:
        """Makes the folder, with a shell and with Python."""
        python = os.path.realpath(PYTHON)
        standard = f"/usr/lib/{os.path.basename(python)}"
        left_out = shutil.ignore_patterns("test", "__pycache__", "config-*", "dist-packages")
        shutil.copytree(standard, self.room + standard, symlinks=True, ignore=left_out)
        built = f"{standard}/lib-dynload"
        linked = [SHELL, python, *(f"{built}/{it}" for it in os.listdir(built))]
        for path in (SHELL, PYTHON, *list_libraries(linked)):
            self.copy_in(path, path)
        os.makedirs(f"{self.room}/dev")
        with open(f"{self.room}/dev/null", "wb"):
            pass
        os.makedirs(f"{self.room}/tmp")
        return self

    def __exit__(self, *_why: object) -> None:
        """Removes the folder."""
        subprocess.run(["chmod", "-R", "u+w", self.room], check=False)
        shutil.rmtree(self.room)

    def copy_in(self, path: str, target_path: str) -> None:
        """Copies a file, or a folder with all that is in it, into the container."""
        target = self.room + target_path
        os.makedirs(os.path.dirname(target), exist_ok=True)
        if os.path.isdir(path):
            shutil.copytree(path, target, symlinks=True)
        else:
            shutil.copy2(os.path.realpath(path), target)

    def start_command(self, arguments: list[str], folder: str, **streams: Any) -> subprocess.Popen:
        """Starts a command in the container, in a folder of it."""

        def enter_container() -> None:
            """Makes the container's folder the root of the process that is started."""
            os.chroot(self.room)
            os.chdir(folder)

        return subprocess.Popen(arguments, preexec_fn=enter_container, env={"PATH": "/usr/bin:/bin"}, **streams)


def list_libraries(programs: list[str]) -> list[str]:
    """Returns the shared libraries with which programs are linked, and the loader."""
    printed = subprocess.run(["ldd", *programs], capture_output=True, text=True, check=False).stdout
    return sorted(set(re.findall(r"(/\S+\.so\S*) \(", printed)))
