"""A stand-in for nbdkit with its plugin for Python, where there is none: it loads a plugin of API version 2 and calls it as nbdkit does.

Names and numbers are those of nbdkit-plugin.h and of the page nbdkit-python-plugin(3). A call that raises is answered with the error that
`nbdkit.set_error` has set, or with EIO.
"""

import errno
import importlib.util
import sys
import types

MODELS = ("SERIALIZE_CONNECTIONS", "SERIALIZE_ALL_REQUESTS", "SERIALIZE_REQUESTS", "PARALLEL")
FLAGS = ("MAY_TRIM", "FUA", "REQ_ONE", "FAST_ZERO")
FUA = ("NONE", "EMULATE", "NATIVE")


class Refused(Exception):
    """A call has failed, with this error of the system."""

    def __init__(self, number, why):
        self.number = number
        super().__init__(why)


class Played:
    """A plugin that is loaded and configured, with one connection open."""

    def __init__(self, path, **given):
        self.error = 0
        self.plugin = self.loaded(path)
        assert self.plugin.API_VERSION == 2
        for key, value in given.items():
            self.plugin.config(key, value)
        self.plugin.config_complete()
        self.model = MODELS[self.plugin.thread_model()]
        self.fua = FUA[self.plugin.can_fua(handle := self.plugin.open(False))]
        self.handle, self.size = handle, self.plugin.get_size(handle)

    def loaded(self, path):
        """The module of a plugin, for which a module `nbdkit` is there while it is loaded."""
        nbdkit = types.ModuleType("nbdkit")
        for at, name in enumerate(MODELS):
            setattr(nbdkit, f"THREAD_MODEL_{name}", at)
        for at, name in enumerate(FLAGS):
            setattr(nbdkit, f"FLAG_{name}", 1 << at)
        for at, name in enumerate(FUA):
            setattr(nbdkit, f"FUA_{name}", at)
        nbdkit.set_error = self.set_error
        spec = importlib.util.spec_from_file_location("plugin", path)
        module = importlib.util.module_from_spec(spec)
        sys.modules["nbdkit"] = nbdkit
        try:
            spec.loader.exec_module(module)
        finally:
            del sys.modules["nbdkit"]
        return module

    def set_error(self, number):
        self.error = number

    def call(self, name, *words):
        """A request. Raises Refused if the plugin raises."""
        self.error = 0
        try:
            return getattr(self.plugin, name)(self.handle, *words)
        except Exception as fault:
            raise Refused(self.error or errno.EIO, str(fault)) from None

    def read(self, count, offset):
        buf = bytearray(count)
        # nbdkit gives its own memory, in which the plugin must put the bytes.
        self.call("pread", memoryview(buf), offset, 0)
        return bytes(buf)

    def write(self, data, offset, fua=False):
        self.call("pwrite", memoryview(bytes(data)).toreadonly(), offset, self.flags(fua))

    def trim(self, count, offset, fua=False):
        self.call("trim", count, offset, self.flags(fua))

    def zero(self, count, offset, fua=False):
        # A client may take zeros that are a hole; nbdkit says so of each that did not forbid it.
        self.call("zero", count, offset, self.flags(fua) | 1 << FLAGS.index("MAY_TRIM"))

    def flush(self):
        self.call("flush", 0)

    @staticmethod
    def flags(fua):
        return fua << FLAGS.index("FUA")
