"""tests/random-polls, whose name Python cannot import."""

import functools
import importlib.machinery
import importlib.util
import types

from tests.support.program import ROOT


@functools.cache
def random_polls() -> types.ModuleType:
    """The module that makes random polls."""
    loader = importlib.machinery.SourceFileLoader(
        "random_polls", str(ROOT / "tests" / "random-polls")
    )
    spec = importlib.util.spec_from_loader("random_polls", loader)
    assert spec is not None
    module = importlib.util.module_from_spec(spec)
    loader.exec_module(module)
    return module
