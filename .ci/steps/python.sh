#!/usr/bin/env bash
# The Python package and the Debian package: the types of the sources are checked, the shared library and the package are built, and the tests of
# python/tests run on both.
set -euo pipefail
cd "$(dirname "$0")/../.."
. .ci/variables.sh
# Another folder of modules, or other options of pytest, would have it test something else.
unset PYTHONPATH PYTHONHOME PYTEST_ADDOPTS PYTEST_PLUGINS
export PYTHONDONTWRITEBYTECODE=1
bash .ci/tools.sh
bash tools/build.sh host
bash tools/package/deb.sh
(cd python && /usr/bin/python3 -m mypy --cache-dir=/dev/null)
/usr/bin/python3 -m pytest -q -p no:cacheprovider python/tests
echo "the Python package and the Debian package do what the header and the documents say"
