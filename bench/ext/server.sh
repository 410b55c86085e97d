# SPDX-License-Identifier: MIT
# php-fpm and nginx of a script's own, in its scratch folder; scripts of this folder read this file after
# ../../php/ext/checks/common.sh.
version=$(php -r 'echo PHP_MAJOR_VERSION, ".", PHP_MINOR_VERSION;')
fpm=$(command -v "php-fpm$version" || command -v php-fpm || echo "/usr/sbin/php-fpm$version")
[ -x "$fpm" ] || { echo "no $fpm: apt-get install php-fpm" >&2; exit 1; }
nginx=$(command -v nginx || echo /usr/sbin/nginx)
# Workers may be another user's.
chmod 755 "$scratch"
as_user=$([ "$(id -u)" != 0 ] || echo nobody)

# Waits up to half a minute until a command is true.
soon() {
    local i
    for ((i = 0; i < 300; i++)); do
        if "$@" 2>/dev/null; then return 0; fi
        sleep 0.1
    done
    return 1
}

# A port of this machine on which no process listens, from 18000 on.
free_port() {
    php -n -r 'for ($port = 18000; $port < 18900; $port++) {
        if ($s = @stream_socket_server("tcp://127.0.0.1:$port")) { echo $port; exit; }
    } exit(1);'
}

# Starts php-fpm with this many workers, and sets `master`: serve_fpm SO SOCKET WORKERS [-d NAME=VALUE..]. The lines of the
# pool's section in `fpm_env` are added.
fpm_env=
serve_fpm() {
    local so=$1 socket=$2 workers=$3 own
    shift 3
    # Other users may not be allowed to read the extension's folder.
    own="$scratch/$(basename "$socket").so"
    cp "$so" "$own"
    cat >"$socket.conf" <<END
[global]
error_log = $socket.log
daemonize = no
[www]
$([ -z "$as_user" ] || printf 'user = nobody\ngroup = nogroup\nlisten.owner = nobody')
listen = $socket
listen.backlog = 511
pm = static
pm.max_children = $workers
$fpm_env
END
    PHP_INI_SCAN_DIR=$(settings_of "$own" fpm) "$fpm" -y "$socket.conf" -d apc.use_request_time=0 "$@" >>"$socket.log" 2>&1 &
    master=$!
    started+=("$master")
    soon test -S "$socket" || { cat "$socket.log" >&2; return 1; }
}

# Starts nginx over a php-fpm, and sets `front` and `port`: serve_nginx SOCKET FOLDER
serve_nginx() {
    local socket=$1 folder=$2 own="$1.nginx"
    [ -x "$nginx" ] || { echo "no $nginx: apt-get install nginx-light" >&2; exit 1; }
    port=$(free_port)
    mkdir -p "$own"
    cat >"$own/conf" <<END
daemon off;
${as_user:+user nobody nogroup;}
worker_processes 1;
pid $own/pid;
error_log $own/log warn;
events { worker_connections 512; }
http {
    access_log off;
    client_body_temp_path $own/body;
    fastcgi_temp_path $own/fastcgi;
    proxy_temp_path $own/proxy;
    uwsgi_temp_path $own/uwsgi;
    scgi_temp_path $own/scgi;
    server {
        listen 127.0.0.1:$port;
        root $folder;
        location / {
            # A connection that is kept keeps a worker, and other requests wait without end.
            fastcgi_pass unix:$socket;
            fastcgi_index index.php;
            fastcgi_param SCRIPT_FILENAME \$document_root\$fastcgi_script_name;
            fastcgi_param SCRIPT_NAME \$fastcgi_script_name;
            fastcgi_param QUERY_STRING \$query_string;
            fastcgi_param REQUEST_METHOD \$request_method;
            fastcgi_param REQUEST_URI \$request_uri;
            fastcgi_param SERVER_PROTOCOL \$server_protocol;
            fastcgi_param REMOTE_ADDR \$remote_addr;
        }
    }
}
END
    "$nginx" -e "$own/log" -p "$own" -c "$own/conf" >>"$own/log" 2>&1 &
    front=$!
    started+=("$front")
    soon php -n -r 'exit(@fsockopen("127.0.0.1", (int) $argv[1]) ? 0 : 1);' "$port" || { cat "$own/log" >&2; return 1; }
}

has_ended() { ! kill -0 "$1" 2>/dev/null; }

# Stops processes that a script started, and what they started; by force if one does not end in half a minute.
stop() {
    local id workers
    for id in "$@"; do
        workers=$(cat "/proc/$id/task/$id/children" 2>/dev/null || true)
        kill -TERM "$id" 2>/dev/null || true
        if ! soon has_ended "$id"; then
            # Numbers of processes that were seen as its own.
            kill -KILL "$id" $workers 2>/dev/null || true
        fi
        wait "$id" 2>/dev/null || true
    done
}
