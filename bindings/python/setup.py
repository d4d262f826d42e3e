"""Links the proved library, libselfcheck.a, into a shared object beside the module. SELFCHECK_LIB is the folder that has
it; without it that is `lib` in the source of a release, and `bindings/lib` in a clone."""

import os
import subprocess
from setuptools import Distribution, setup
from setuptools.command.build_py import build_py

HERE = os.path.dirname(os.path.abspath(__file__))
FOLDERS = [os.environ["SELFCHECK_LIB"]] if "SELFCHECK_LIB" in os.environ else [f"{HERE}/lib", f"{HERE}/../lib"]


def archive():
    for folder in FOLDERS:
        if os.path.exists(f"{folder}/libselfcheck.a"):
            return f"{folder}/libselfcheck.a"
    raise SystemExit(
        f"no libselfcheck.a in {' or '.join(FOLDERS)}\nthree ways to it: the wheel of a release; bindings/try in a "
        "clone, with the Rattle kit; or SELFCHECK_LIB, the folder that has it"
    )


class WithLibrary(build_py):
    def run(self):
        super().run()
        shared = os.path.join(self.build_lib, "selfcheck", "libselfcheck.so")
        whole = ["-Wl,--whole-archive", archive(), "-Wl,--no-whole-archive"]
        subprocess.check_call([os.environ.get("CC", "cc"), "-shared", "-o", shared, *whole])


class ForOneMachine(Distribution):
    def has_ext_modules(self):
        return True


setup(cmdclass={"build_py": WithLibrary}, distclass=ForOneMachine)
