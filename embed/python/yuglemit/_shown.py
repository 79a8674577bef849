# SPDX-License-Identifier: Apache-2.0
"""Lets `help` and `pydoc` list the public names of a class alone, without a constructor that users don't call."""

from __future__ import annotations

import inspect
from typing import List

_PLAIN = (object, tuple, Exception, BaseException)


class Shown(type):
    """The class of the package's public classes. `dir` and `pydoc` list no special methods of them."""

    def __dir__(cls) -> List[str]:
        names = {name for it in cls.__mro__ if it not in _PLAIN for name in vars(it)}
        return sorted(name for name in names if not name.startswith("_"))

    @property
    def __signature__(cls) -> inspect.Signature:
        return inspect.Signature()
