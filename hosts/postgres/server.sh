#!/bin/sh
# server.sh start|stop|kill FOLDER: a PostgreSQL server with its data, socket and log in a folder of its own, which is
# made by the first start. Nobody else reaches it: it listens on the socket alone. `kill` ends it at once, as a loss of
# power would; the next start recovers. Connect with `host=FOLDER dbname=postgres user=circles`. Started by root, it
# runs as nobody, since PostgreSQL refuses root. Exit 77 where no server is installed. Settings may follow `start
# FOLDER` as further words: `-c fsync=off`.
set -eu

bin=$(dirname "$(command -v initdb || ls /usr/lib/postgresql/*/bin/initdb 2>/dev/null | tail -n 1)")
[ -x "$bin/pg_ctl" ] || { echo 'server.sh: no PostgreSQL server is installed' >&2; exit 77; }
do=${1:?start, stop or kill}
folder=${2:?the folder}
shift 2
case $folder in /*) ;; *) folder=$PWD/$folder ;; esac

# as COMMAND...: runs it as a user that PostgreSQL takes.
as() {
    if [ "$(id -u)" -eq 0 ]; then
        setpriv --reuid=nobody --regid=nogroup --clear-groups "$@"
    else
        "$@"
    fi
}

case $do in
start)
    if [ ! -d "$folder/data" ]; then
        mkdir -p "$folder"
        if [ "$(id -u)" -eq 0 ]; then chown nobody:nogroup "$folder"; fi
        as "$bin/initdb" -D "$folder/data" -U circles -A trust -k -E UTF8 --locale=C >"$folder/initdb.log"
    fi
    cd "$folder"
    # Shared memory that a killed server leaves is in its folder, too.
    as "$bin/pg_ctl" start -w -D "$folder/data" -l "$folder/log" -o "-c listen_addresses= \
        -c unix_socket_directories=$folder -c dynamic_shared_memory_type=mmap $*" >/dev/null
    ;;
stop)
    cd "$folder"
    as "$bin/pg_ctl" stop -w -m fast -D "$folder/data" >/dev/null
    ;;
kill)
    pid=$(head -n 1 "$folder/data/postmaster.pid")
    # Stopped first, so that it has no further children.
    kill -STOP "$pid"
    all="$pid $(pgrep -P "$pid" | tr '\n' ' ')"
    # shellcheck disable=SC2086
    kill -9 $all
    for one in $all; do
        # One that has ended may still be listed, as a zombie.
        while case $(ps -o stat= -p "$one") in '' | Z*) false ;; esac; do sleep 0.05; done
    done
    # Nobody is left who could hold them; a zombie would keep the next server from starting.
    rm -f "$folder/data/postmaster.pid" "$folder"/.s.PGSQL.*
    ;;
*) echo 'usage: server.sh start|stop|kill FOLDER' >&2 && exit 2 ;;
esac
