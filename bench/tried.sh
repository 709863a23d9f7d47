#!/usr/bin/env bash
# Tries the built program on the sockets of 127.0.0.1, with clients that others wrote, and prints what was seen.
#
#     make build && bench/tried.sh            the program of this checkout
#     bench/tried.sh PROGRAM                  another one that takes `-D -f CONF`
#
# It installs nothing: a client that isn't there is skipped. A line says `ok`, `skip` or `FAIL`; the last one counts them,
# and with a FAIL the script ends with 1. docs/TRIED.md has what was seen once.
cd "$(dirname "$0")/.." || exit 1
program=${1:-crates/lighttpd/out/lighttpd}
folder=$(mktemp -d)
server=
passed=0 failed=0 skipped=0

finish() {
    [ -n "$server" ] && kill "$server" 2> /dev/null
    rm -r "$folder"
}
trap finish EXIT

ok() { echo "ok    $*"; passed=$((passed + 1)); }
fail() { echo "FAIL  $*"; failed=$((failed + 1)); }
skip() { echo "skip  $*"; skipped=$((skipped + 1)); }

# TEXT COMMAND..: the command says by its status whether the text is so.
check() {
    local text=$1
    shift
    if "$@" > /dev/null 2>&1; then ok "$text"; else fail "$text"; fi
}

# What a client prints beside its verdict.
seen() {
    local text=$1 told
    shift
    if told=$("$@" 2>&1); then ok "$text: $told"; else fail "$text: $told"; fi
}

is_there() { command -v "$1" > /dev/null || { skip "$1 isn't there"; return 1; }; }

answers() { (exec 3<> "/dev/tcp/127.0.0.1/$port") 2> /dev/null; }

# Until the server takes connections, for 5 seconds at most.
start() {
    "$program" -D -f "$folder/tried.conf" > "$folder/out" 2> "$folder/err" &
    server=$!
    for _ in $(seq 50); do
        answers && return 0
        sleep 0.1
    done
    return 1
}

# Milliseconds from the signal to the end of the process.
stop() {
    local before
    before=$(date +%s%N)
    kill -TERM "$server"
    wait "$server" 2> /dev/null
    ended=$?
    spent=$((($(date +%s%N) - before) / 1000000))
    server=
}

has() { grep -q -- "$1" "$folder/told"; }
told() { "$@" > "$folder/told" 2>&1; }

port=$(python3 -c 'import socket; s = socket.socket(); s.bind(("127.0.0.1", 0)); print(s.getsockname()[1])')
page=examples/www/index.html
site=http://127.0.0.1:$port
head -c 10485760 /dev/zero > "$folder/large"
mkdir "$folder/www"
cp examples/www/* "$folder/www"
mv "$folder/large" "$folder/www"
mkdir "$folder/www/below"
cp examples/www/index.html "$folder/www/below"
cp examples/www/hello.txt "$folder/www/hello.bak"
# Chromium tells by the title of this page how wide the image of the other one is.
cat > "$folder/www/framed.html" << 'PAGE'
<!DOCTYPE html><title>nothing</title>
<iframe src="/below" onload="document.title = contentDocument.title + ', ' + contentDocument.images[0].naturalWidth"></iframe>
PAGE
cp examples/www/mouse.png "$folder/www/below"
cat > "$folder/tried.conf" << CONF
server.document-root = "$folder/www"
server.bind = "127.0.0.1"
server.port = $port
server.max-keep-alive-requests = 100
server.modules = ( "mod_rewrite" )
index-file.names = ( "index.html" )
mimetype.assign = ( ".html" => "text/html; charset=utf-8", ".png" => "image/png", ".txt" => "text/plain" )
static-file.exclude-extensions = ( ".bak" )
url.rewrite-once = ( "^/old/([a-z]+)$" => "/\$1.txt" )
\$HTTP["user-agent"] =~ "^(other)/" {
    server.tag = "for others"
    url.rewrite-once = ( "^/who$" => "/%1.txt" )
}
CONF

if ! start; then
    fail "the server takes connections: $(cat "$folder/err")"
    exit 1
fi
ok "the server takes connections: $(cat "$folder/out")"

if is_there curl; then
    check "curl: the page, byte for byte" cmp <(curl -s "$site/index.html") "$page"
    check "curl: the image, byte for byte" cmp <(curl -s "$site/mouse.png") examples/www/mouse.png
    check "curl: 10 MiB, byte for byte" cmp <(curl -s "$site/large") "$folder/www/large"
    check "curl: a missing page gets 404" test "$(curl -s -o /dev/null -w '%{http_code}' "$site/missing")" = 404
    check "curl -I: the length and no body" test "$(curl -s -I "$site/index.html" | tr -d '\r' | sed -n 's/^Content-Length: //p')" = "$(wc -c < "$page")"
    check "curl: a POST to a file gets 405" test "$(curl -s -o /dev/null -w '%{http_code}' -d x "$site/index.html")" = 405
    check "curl: a path that ends with / gets the index file, byte for byte" cmp <(curl -s "$site/below/") "$page"
    check "curl: a directory is redirected, with the query" test "$(curl -s -o /dev/null -w '%{http_code} %{redirect_url}' "$site/below?a=b")" = "301 $site/below/?a=b"
    check "curl -L: the redirection leads to the page" cmp <(curl -s -L "$site/below") "$page"
    check "curl: media types by the end of the name" test "$(for name in index.html mouse.png hello.txt large; do
        curl -s -o /dev/null -w '%{content_type}, ' "$site/$name"; done)" = "text/html; charset=utf-8, image/png, text/plain, application/octet-stream, "
    check "curl -r: bytes 2 to 4" test "$(curl -s -r 2-4 -w ' %{http_code}' "$site/hello.txt")" = "llo 206"
    check "curl -r: the last four bytes" test "$(curl -s -r -4 -w '%{http_code}' "$site/hello.txt")" = "$(tail -c 4 examples/www/hello.txt)
206"
    check "curl -r: bytes that aren't there get 416" test "$(curl -s -o /dev/null -r 6- -w '%{http_code}' "$site/hello.txt")" = 416
    head -c 1000 "$folder/www/large" > "$folder/part"
    curl -s -C - -o "$folder/part" "$site/large"
    check "curl -C: 10 MiB are gone on with from byte 1,000, byte for byte" cmp "$folder/part" "$folder/www/large"
    check "curl -z: a file that isn't newer gets 304 and no byte" test "$(curl -s -z "$folder/www/hello.txt" -w '%{http_code}' "$site/hello.txt")" = 304
    check "curl -z: a file that is newer is sent" test "$(curl -s -o /dev/null -z 'Thu, 01 Jan 1970 00:00:00 GMT' -w '%{http_code}' "$site/hello.txt")" = 200
    check "curl: an excluded extension gets 403" test "$(curl -s -o /dev/null -w '%{http_code}' "$site/hello.bak")" = 403
    check "curl: a target is rewritten" cmp <(curl -s "$site/old/hello") examples/www/hello.txt
    check "curl -A: a condition on the user agent counts for its requests alone" test \
        "$(curl -s -o /dev/null -A other/1 -D - "$site/hello.txt" | tr -d '\r' | sed -n 's/^Server: //p') $(curl -s -o /dev/null -D - "$site/hello.txt" | tr -d '\r' | sed -n 's/^Server: //p')" = "for others lighttpd"
    cp examples/www/hello.txt "$folder/www/other.txt"
    check "curl -A: a rule is filled from the condition of its block" cmp <(curl -s -A other/1 "$site/who") examples/www/hello.txt
    connects=$(curl -s -o /dev/null -w '%{http_code} %{num_connects}\n' "$site/index.html?[1-1000]" |
        awk '$1 == 200 { n++ } { c += $2 } END { print n, c }')
    check "curl: 1,000 requests got 200 over 10 connections ($connects)" test "$connects" = "1000 10"
fi
if is_there wget; then
    check "wget: the page, byte for byte" cmp <(wget -q -O - "$site/index.html") "$page"
    wget -q -O /dev/null "$site/missing"
    check "wget: a missing page ends with 8, an error of the server" test $? = 8
fi
if is_there ab; then
    told ab -q -n 1000 -c 8 "$site/index.html"
    check "ab: 1,000 requests, none failed, all 200" eval 'has "^Complete requests: *1000$" && has "^Failed requests: *0$" && ! has Non-2xx'
    told ab -q -k -n 1000 -c 8 "$site/index.html"
    check "ab -k: the same with keep-alive ($(grep -o 'Keep-Alive requests: .*' "$folder/told" | tr -s ' '))" \
        eval 'has "^Complete requests: *1000$" && has "^Failed requests: *0$" && ! has Non-2xx'
    told ab -q -n 100 -c 8 "$site/missing"
    check "ab: 100 requests for a missing page, none got 200" has "^Non-2xx responses: *100$"
fi
if is_there wrk; then
    told wrk -t1 -c8 -d1s "$site/index.html"
    check "wrk: the page for a second, all 200, no socket error ($(grep -o '[0-9]* requests in .*s,' "$folder/told" | tr -d ,))" \
        eval 'has "requests in" && ! has Non-2xx && ! has "Socket errors"'
    told wrk -t1 -c8 -d1s "$site/missing"
    check "wrk: a missing page, none got 200" \
        test "$(sed -n 's/^ *\([0-9]*\) requests in.*/\1/p' "$folder/told")" = "$(sed -n 's/.*Non-2xx.*: *//p' "$folder/told")"
fi
if is_there h2load; then
    told h2load --h1 -n 800 -c 8 "$site/index.html"
    check "h2load --h1: 800 requests over 8 connections, all 200" eval 'has "800 succeeded, 0 failed" && has "800 2xx"'
    told h2load --h1 -n 100 -c 8 "$site/missing"
    check "h2load --h1: 100 requests for a missing page, all 404" has "0 2xx, 0 3xx, 100 4xx"
fi

if is_there chromium; then
    told timeout 60 chromium --headless --no-sandbox --disable-gpu --user-data-dir="$folder/chromium" --virtual-time-budget=5000 --dump-dom "$site/framed.html"
    check "chromium: a directory is redirected, its page is shown with its image, 64 wide" has "<title>It serves, 64</title>"
fi

seen "keep-alive" python3 bench/clients.py "$port" keep-alive
seen "idle" python3 bench/clients.py "$port" idle
sleep 1
seen "full" python3 bench/clients.py "$port" full
seen "slow" python3 bench/clients.py "$port" slow

"$program" -D -f "$folder/tried.conf" > /dev/null 2> "$folder/second"
second=$?
check "a second server at the same port ends with 8 ($(head -1 "$folder/second"))" test "$second" = 8

# A client that takes its 10 MiB slowly is in the middle of a reply.
python3 -c "
import socket, time
client = socket.create_connection(('127.0.0.1', $port))
client.sendall(b'GET /large HTTP/1.0\r\n\r\n')
time.sleep(5)" &
client=$!
sleep 0.5
stop
check "SIGTERM ends it in the middle of a reply, in $spent ms, as the signal does ($ended)" eval 'test "$spent" -lt 200 && test "$ended" = 143'
kill "$client" 2> /dev/null
wait "$client" 2> /dev/null
check "a server at the same port takes connections right away" start
stop

echo "$passed ok, $failed failed, $skipped skipped"
[ "$failed" = 0 ]
