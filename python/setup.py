"""Builds the library, which a source distribution has as one C file, and a clone among its released files. The wheels
of a release bring it: where $DNORM_WITHOUT_LIBRARY is set, nothing is built."""

import os
import shutil
import sys

from setuptools import Extension, setup

# Where the file is, with its header: in a source distribution and in a clone.
PLACES = ["c", "../released/c"]

libraries = []
if not os.environ.get("DNORM_WITHOUT_LIBRARY"):
    found = [it for it in PLACES if os.path.exists(f"{it}/libdnorm.c")]
    if not found:
        sys.exit(f"dnorm: there is no libdnorm.c in {' or '.join(PLACES)}, of which the library is compiled")
    os.makedirs("build/c", exist_ok=True)
    for it in ["libdnorm.c", "dnorm.h"]:
        shutil.copy(f"{found[0]}/{it}", f"build/c/{it}")
    # It is no module of Python, and is loaded by its path. Sources of a package are below the package.
    libraries.append(Extension("dnorm.libdnorm", ["build/c/libdnorm.c"], define_macros=[("DNORM_SHARED", None)]))
setup(ext_modules=libraries)
