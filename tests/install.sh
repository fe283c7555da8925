# For tests that need what Debian packages have: read in by them. Root on Debian installs what is missing (TEPAZOHUI_INSTALL=no keeps it from that).

python_with() { # MODULE: prints the Python that has it
    local python
    for python in /usr/bin/python3 python3; do
        if "$python" -c "import $1" 2>/dev/null; then
            echo "$python"
            return
        fi
    done
    return 1
}

install() { # PACKAGES; one test at a time
    [ "${TEPAZOHUI_INSTALL:-yes}" != no ] && [ "$(id -u)" = 0 ] && command -v apt-get >/dev/null || return 1
    export DEBIAN_FRONTEND=noninteractive
    (
        flock 9
        timeout 600 apt-get install -qq -y --no-install-recommends "$@" >/dev/null 2>&1 ||
            { timeout 300 apt-get update -qq && timeout 600 apt-get install -qq -y --no-install-recommends "$@"; } >/dev/null 2>&1
    ) 9>"${TMPDIR:-/tmp}/tepazohui-install"
}
