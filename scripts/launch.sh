# launch PROGRAM WORD..: runs a program of this repository, for the scripts at the top that have the programs' names.
#
# It runs the newest build whose proof was checked: the one in crates/PROGRAM/out, which ./build --proved and ./test leave there, or else
# the one in release/. It runs no unproved build, and compares nothing but the two files' times, so that a call costs little.
launch() {
    name=$1
    shift
    program=$top/release/$name
    built=$top/crates/$name/out/$name
    # A release that came with a pull is newer than what was built here before.
    if [ -x "$built" ] && ! [ "$program" -nt "$built" ]; then
        program=$built
    fi
    if [ ! -x "$program" ]; then
        echo "$0: there is no $name in release/; ./build --proved $name builds one" >&2
        exit 4
    fi
    case "$name $*" in "rusziveg --version" | "rusziveg -V")
        "$program" --version
        if [ "$program" = "$built" ]; then
            echo "proved and built in this checkout"
            rt version
        else
            echo "release of commit $(cat "$top/release/COMMIT")"
            head -n 1 "$top/release/SOURCES"
        fi
        exit
        ;;
    esac
    exec "$program" "$@"
}
