# SPDX-License-Identifier: Apache-2.0
"""Tags the wheel for the machine whose library it has, and for any Python 3; pyproject.toml has the rest."""

from __future__ import annotations

from setuptools import Distribution, setup

try:
    from setuptools.command.bdist_wheel import bdist_wheel
except ImportError:
    from wheel.bdist_wheel import bdist_wheel


class WithLibrary(Distribution):
    """Has a shared library, though no extension module."""

    def has_ext_modules(self) -> bool:
        return True


class AnyPython(bdist_wheel):
    """Serves each Python 3, since ctypes loads the library."""

    def get_tag(self) -> tuple[str, str, str]:
        return ("py3", "none", super().get_tag()[2])


setup(distclass=WithLibrary, cmdclass={"bdist_wheel": AnyPython})
