# Read by the other scripts, which set `here`: prepare CRATE PEER [PROGRAM] finds the proved program of
# a crate, or the one that is given, as `program`, and builds the peer as build/PEER, with the flags
# `peer_flags` where there are some.
prepare() {
    program=${3:-$here/../crates/$1/out/$1}
    if [ ! -x "$program" ]; then
        echo "there is no program at $program: prove and build it first (rt run in its folder)" >&2
        exit 2
    fi
    mkdir -p "$here/build"
    rustc --edition 2024 -O ${peer_flags:-} -o "$here/build/$2" "$here/$2.rs"
}
