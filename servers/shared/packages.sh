# shellcheck shell=bash disable=SC2154
# install PACKAGE..: those of Debian's packages that are missing, for the test scripts of both servers. `room` is a folder of
# theirs.

# update: its lists have a lock of their own, for which apt-get doesn't wait
update() {
    for _ in $(seq 60); do
        apt-get update > "$room/install" 2>&1 && return
        grep -q 'Could not get lock' "$room/install" || break
        sleep 5
    done
    cat "$room/install"
}

install() {
    local missing='' package
    for package in "$@"; do
        dpkg -s "$package" > /dev/null 2>&1 || missing="$missing $package"
    done
    [ -n "$missing" ] || return 0
    # A machine that is fresh knows no package yet.
    # shellcheck disable=SC2086
    apt-get install -s $missing > /dev/null 2>&1 || update
    # Where others install, it waits for them.
    # shellcheck disable=SC2086
    apt-get install -y --no-install-recommends -o DPkg::Lock::Timeout=300 $missing > "$room/install" 2>&1 \
        || { cat "$room/install"; exit 1; }
}
