# Sourced by the scripts beside it, not run, with `here` set to this folder. Stops where IronRDP cannot be built. A relative path to its
# source is relative to where the script was called; cargo runs elsewhere.

if [ -n "${RDP6_RUST_SOURCE:-}" ]; then
    RDP6_RUST_SOURCE=$(realpath -m "$RDP6_RUST_SOURCE")
    export RDP6_RUST_SOURCE
fi
missing=$("$here/missing")
if [ -n "$missing" ]; then
    echo "IronRDP cannot be built: $missing." >&2
    exit 1
fi
