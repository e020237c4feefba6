#!/bin/sh
# Runs the tests of python/ over the built program, with the first Python that has numpy and pytest. Where none has them it
# says in one line what to install, and ends with 0: the rest of the repository does without.
#   tools/test_python.sh [PYTEST'S ARGUMENTS]
top=$(cd "$(dirname "$0")/.." && pwd) || exit 1
for python in python3 /usr/bin/python3 /usr/local/bin/python3; do
    if "$python" -c 'import numpy, pytest' 2> /dev/null; then
        cd "$top/python" && exec "$python" -m pytest -q -rs -p no:cacheprovider "$@"
    fi
done
echo "python/ is not tested: no Python here has numpy and pytest; on Debian, apt install python3-numpy python3-pytest"
