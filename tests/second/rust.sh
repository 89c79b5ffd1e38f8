# For the scripts that build with Rust: what they ask of the machine, and the library that they link. They are at the
# repository's root when they call these.

# Ends the script NAME where it is to be skipped, or where this machine cannot build the MANIFEST.
need_rust() {
    local name=$1 manifest=$2 needed tool version
    if [ "${GRADES_SKIP_RUST-}" = 1 ]; then
        echo "$name: skipped: GRADES_SKIP_RUST is set"
        exit 0
    fi
    lacks() {
        echo "$name: $1; GRADES_SKIP_RUST=1 skips this"
        exit 1
    }
    [ "$(uname -m)" = x86_64 ] || lacks "x86-64 is needed, here is $(uname -m)"
    needed=$(sed -n 's/^rust-version = "\(.*\)"$/\1/p' "$manifest")
    for tool in cargo rustc; do
        command -v $tool > /dev/null || lacks "Rust $needed or newer is needed, here is no $tool"
        version=$($tool --version 2> /dev/null | cut -d ' ' -f 2) || lacks "Rust $needed or newer is needed, $tool does not run"
        printf '%s\n' "$needed" "$version" | sort -V -C || lacks "Rust $needed or newer is needed, here is $tool $version"
    done
}

# Builds the library, unless GRADES_LIBRARY names an archive; exports that name, in full.
need_library() {
    local name=$1
    if [ -n "${GRADES_LIBRARY-}" ]; then
        [ -f "$GRADES_LIBRARY" ] || { echo "$name: GRADES_LIBRARY names no file: $GRADES_LIBRARY"; exit 1; }
    else
        tools/build panel
        GRADES_LIBRARY=target/staticlib/libpanel.a
    fi
    GRADES_LIBRARY=$(realpath "$GRADES_LIBRARY")
    export GRADES_LIBRARY
}
