"""Installs the package with the shared object beside it: that of bindings/c/build, or the one that FUZSBANEL_LIB names."""
import os
import shutil

from setuptools import setup
from setuptools.command.build_py import build_py
from setuptools.dist import Distribution

LIBRARY = os.environ.get("FUZSBANEL_LIB", os.path.join(os.path.dirname(os.path.abspath(__file__)), "../c/build/libfuzsbanel.so"))
INSTALLED = "fuzsbanel/libfuzsbanel.so"


class WithLibrary(build_py):
    def run(self):
        if not os.path.exists(LIBRARY):
            raise SystemExit(f"no {LIBRARY}: run `rt lib` in crates/capi and then `make -C bindings/c`, or name it by FUZSBANEL_LIB")
        super().run()
        shutil.copy(LIBRARY, os.path.join(self.build_lib, INSTALLED))

    def get_outputs(self, include_bytecode=True):
        return [*super().get_outputs(include_bytecode), os.path.join(self.build_lib, INSTALLED)]


class OfOneMachine(Distribution):
    """The shared object is of one kind of machine, and so is what is built here."""

    def has_ext_modules(self):
        return True


setup(cmdclass={"build_py": WithLibrary}, distclass=OfOneMachine)
