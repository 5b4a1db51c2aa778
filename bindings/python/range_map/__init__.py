"""Says that the package is not built. If it is, Python imports the compiled part, `__init__.*.so`, in place of this file."""
import sys

raise ImportError(
    "range_map is not built for %s, which is Python %d.%d: run `make -C bindings python PYTHON=%s` in the repository of range_map, "
    "or install the package with pip" % (sys.executable, *sys.version_info[:2], sys.executable),
    name=__name__,
    path=__file__,
)
