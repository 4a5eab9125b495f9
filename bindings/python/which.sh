# shellcheck shell=sh
# Read by tests.

# The first python3 that has numpy; PYTHON names another one. Nothing where there is none.
python_with_numpy() {
    for name in ${PYTHON:-python3 /usr/bin/python3}; do
        if "$name" -c 'import numpy' 2>/dev/null; then
            command -v "$name"
            return
        fi
    done
}
