"""Where the behaviour rows are. Hypothesis without a folder of its own, and with the same examples each time: the gate's answer doesn't hang on chance."""
import asyncio
import atexit
import inspect
import pathlib
import shutil
import sys
import tempfile

import hypothesis
import pytest
from hypothesis import configuration

sys.path.insert(0, str(pathlib.Path(__file__).resolve().parents[2] / "behaviour"))
_HOME = tempfile.mkdtemp(prefix="hypothesis-")
atexit.register(shutil.rmtree, _HOME, ignore_errors=True)
configuration.set_hypothesis_home_dir(_HOME)
hypothesis.settings.register_profile("gate", database=None, derandomize=True, deadline=None, max_examples=60,
                                     suppress_health_check=[hypothesis.HealthCheck.too_slow])  # fmt: skip  # (a busy host is no fault)
hypothesis.settings.load_profile("gate")


@pytest.hookimpl(tryfirst=True)
def pytest_pyfunc_call(pyfuncitem: pytest.Function) -> bool | None:
    """A test that is a coroutine is run, for a minute at most."""
    if not inspect.iscoroutinefunction(pyfuncitem.obj):
        return None
    words = {name: pyfuncitem.funcargs[name] for name in inspect.signature(pyfuncitem.obj).parameters}
    asyncio.run(asyncio.wait_for(pyfuncitem.obj(**words), 60))
    return True
