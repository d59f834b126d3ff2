"""Puts the shared object that is assembled of dist/ into the package, unless one lies there. Where it can't be assembled, the
package looks for it when it is imported."""

import os
import shutil
import subprocess

from setuptools import setup
from setuptools.command.build_py import build_py

HERE = os.path.dirname(os.path.abspath(__file__))
C, NAME = os.path.dirname(HERE), "libtuvaddri.so.2"
OPTIONS = {}


class Assembled(build_py):
    def run(self):
        super().run()
        if not getattr(self, "editable_mode", False) and subprocess.run([f"{C}/library", "--dist"]).returncode == 0:
            shutil.copy(f"{C}/out/dist/{NAME}", f"{self.build_lib}/tuvaddri")


in_repository = os.path.exists(f"{C}/library")
if in_repository:
    # (what a build leaves is below c/out)
    room = f"{C}/out/python"
    shutil.rmtree(room, ignore_errors=True)
    os.makedirs(room)
    OPTIONS = {"build": {"build_base": room}, "egg_info": {"egg_base": room}}
setup(options=OPTIONS, cmdclass={"build_py": Assembled} if in_repository and not os.path.exists(f"{HERE}/tuvaddri/{NAME}") else {})
