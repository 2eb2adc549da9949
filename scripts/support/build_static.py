"""Builds the static library of a crate over the libraries that `rt ci` has just proved and left in their folders `out/`.

`rt lib` doesn't take these, since they have no stamp, and proves each of them once more. The crate itself is proved here in any case.
"""

import os
import sys

root, name, kit, *flags = sys.argv[1:]
sys.path.insert(0, os.path.join(kit, "bin"))
import rtlib

os.chdir(root)
crate = next(crate for crate in rtlib.crates_below(root) if crate.name == name)
sys.exit(crate.build_static(flags))
