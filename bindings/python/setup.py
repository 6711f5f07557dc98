"""What pyproject.toml cannot say: the wheel has the shared object and the page inside, and fits any Python on machines of this kind."""

import os
import shutil

from setuptools import Distribution, setup
from setuptools.command.build_py import build_py
from wheel.bdist_wheel import bdist_wheel

ROOT = os.path.join(os.path.dirname(os.path.abspath(__file__)), "..", "..")
BUILT = os.path.join(ROOT, "target", "python")


class OfThisMachine(Distribution):
    def has_ext_modules(self):
        return True


class WithEngine(build_py):
    def run(self):
        shutil.rmtree(self.build_lib, ignore_errors=True)
        super().run()
        for name in ("target/python/libsummerbugle.so", "page/page.html"):
            path = os.path.join(ROOT, name)
            if not os.path.exists(path):
                raise SystemExit("there is no %s: run bindings/python/build in the repository" % name)
            shutil.copy(path, os.path.join(self.build_lib, "summerbugle"))


class AnyPython(bdist_wheel):
    def get_tag(self):
        return "py3", "none", super().get_tag()[2]


os.makedirs(BUILT, exist_ok=True)
setup(distclass=OfThisMachine, cmdclass={"build_py": WithEngine, "bdist_wheel": AnyPython},
      options={"build": {"build_base": os.path.join(BUILT, "wheel")}, "egg_info": {"egg_base": BUILT}})
