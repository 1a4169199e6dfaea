# Builds compare/run-src/$name.rs under target/ where that is wanted, and runs it. Needs rustc alone.
set -eu
here=$(cd "$(dirname "$0")" && pwd)
mkdir -p "$here/../target/compare"
base=$(cd "$here/../target/compare" && pwd)
stale() { ! [ -x "$base/$name" ] || [ -n "$(find "$here/run-src" -newer "$base/$name" | head -n 1)" ]; }
if stale; then
    command -v rustc >/dev/null 2>&1 || { echo "compare/$name: rustc is wanted" >&2; exit 1; }
    echo "compare/$name: building" >&2
    exec 9>"$base/lock.$name"
    flock 9
    if stale; then
        rustc -O --edition 2021 --out-dir "$base/made" "$here/run-src/$name.rs" >"$base/$name.log" 2>&1 || {
            cat "$base/$name.log" >&2
            exit 1
        }
        touch "$base/made/$name"
        mv "$base/made/$name" "$base/$name"
    fi
    exec 9>&-
fi
