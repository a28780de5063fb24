# SPDX-License-Identifier: Apache-2.0
# Sourced by the scripts `mserve` and `mislands` at the top, with `program` set: runs the released program of that name if it is of these
# sources, else one that is built from them (tools/start.py).
unpacked=$root/release/unpacked

# Whether nothing that the release rests on has changed since tools/start.py compared it: `paths` lists that, and is as old as the comparison.
is_compared() {
    local changed paths
    [ -s "$unpacked/paths" ] && mapfile -t paths <"$unpacked/paths" || return 1
    changed=$(cd "$root" && find "${paths[@]}" -newercm "$unpacked/paths" -print -quit 2>&1) && [ -z "$changed" ]
}

. "$root/tools/help.sh"
help_on_output clients/msettings "$@"
if [ "${1-}" != --version ] && is_compared; then
    exec "$unpacked/$program" "$@"
fi
exec python3 "$root/tools/start.py" "$program" "$@"
