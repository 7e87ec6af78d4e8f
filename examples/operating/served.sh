# What the recipes share. Each works in a folder of its own, which is removed at the end, as are the servers that it started.
set -eu
top=$(cd "$(dirname "$0")/../.." && pwd)
rusziveg=${RUSZIVEG:-$top/rusziveg}
folder=$(mktemp -d)
servers=
mounted=

end() {
    for place in $mounted; do umount "$place" 2> /dev/null || true; done
    for server in $servers; do kill "$server" 2> /dev/null || true; done
    rm -rf "$folder"
}
trap end EXIT
trap 'exit 130' INT TERM
cd "$folder"

# needs COMMAND..: ends the recipe where a command is missing.
needs() {
    for command; do
        PATH=$PATH:/usr/sbin:/sbin command -v "$command" > /dev/null || { echo "$(basename "$0"): there is no $command here, so nothing was done"; exit 3; }
    done
}

# server COMMAND..: starts a command behind the scenes, and sets `server` to its number.
server() {
    "$@" >> server.log 2>&1 &
    server=$!
    servers="$servers $server"
}

# waits_for PATH: until there is such a file or socket, for ten seconds.
waits_for() {
    for _ in $(seq 100); do
        [ ! -e "$1" ] || return 0
        sleep 0.1
    done
    echo "$(basename "$0"): $1 did not appear" >&2
    cat server.log >&2
    exit 1
}

# serves IMAGE SOCKET [OPTION..]: serves the disk of an image on a socket, to one client after the other.
serves() {
    image=$1 socket=$2
    shift 2
    server systemd-socket-activate --accept --inetd --listen="$PWD/$socket" "$rusziveg" serve "$image" "$@"
    waits_for "$socket"
}

# at SOCKET: the address by which NBD clients name a socket in this folder.
at() {
    echo "nbd+unix:///?socket=$PWD/$1"
}
