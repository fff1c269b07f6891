# Sourced by the scripts beside it, not run, with `here` set to this folder. Makes the library if it is missing or older than its
# source. A library that RDP6_LIBRARY names is used as it is.

top=$(dirname "$here")
if [ -z "${RDP6_LIBRARY:-}" ]; then
    RDP6_LIBRARY=$top/target/staticlib/librdp6.a
    "$top/scripts/make-library" || {
        echo "RDP6_LIBRARY can name another library, which is then used as it is." >&2
        exit 1
    }
fi
# A relative path is relative to where the script was called; cargo runs elsewhere.
RDP6_LIBRARY=$(realpath -m "$RDP6_LIBRARY")
export RDP6_LIBRARY
. "$here/source.sh"
