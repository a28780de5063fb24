# SPDX-License-Identifier: Apache-2.0
"""In front of a front's modules, by PYTHONPATH: it is killed at a step of the journal's rule, which a file names (`MFRONT_STEPS`)."""
import importlib.util
import os
import sys


class After:
    """Has `killing.install` called once the service's module is there."""

    def find_spec(self, name, path, target=None):
        """The module's own place, with what is called after it."""
        if name != "mserve_front.service":
            return None
        sys.meta_path.remove(self)
        spec = importlib.util.find_spec(name)
        load = spec.loader.exec_module

        def loaded(module):
            load(module)
            import killing
            killing.install(os.environ["MFRONT_STEPS"])
        spec.loader.exec_module = loaded
        return spec


if "MFRONT_STEPS" in os.environ:
    sys.meta_path.insert(0, After())
