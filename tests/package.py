"""The package of python/, over the library under test."""

import importlib
import os
import sys
import threading

from building import ROOT
from expecting import CannotRun

FOLDER = ROOT / "python"
_one_at_a_time = threading.Lock()


def shared_library(built):
    library = next(built.library().glob("libchanv.so.*"), None)
    if library is None:
        raise CannotRun(f"no libchanv.so in {built.library()}")
    return library


def package(built, name="chanv"):
    """The package, or a module of it, imported by the first test that asks."""
    with _one_at_a_time:
        os.environ["CHANV_LIBRARY"] = str(shared_library(built))
        if str(FOLDER) not in sys.path:
            sys.path.insert(0, str(FOLDER))
        return importlib.import_module(name)


def taken_in(chanv, job):
    """The program of a job, for a user who owns all storage and may do everything."""
    everything = {"hanging": True, "interrupting": True, "ending_chains": True}
    return chanv.take_in(job, own=[(0, 1 << 24)], **everything)
