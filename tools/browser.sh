# shellcheck shell=bash
# How ./page and tests/page use a browser: Debian's chromium, without a window. It is sourced.

# dumped FILE FOLDER: the page in FILE, as it is when all its scripts have run, on standard output; FOLDER is for what the browser keeps
# meanwhile. What it has to say goes to standard error; a line with CONSOLE is one of the page's. A browser that has written the whole page
# and does not end by itself, as happens at times, is ended.
dumped() {
    local words=(--headless --disable-gpu --no-first-run --disable-extensions --disable-background-networking --hide-scrollbars
        --user-data-dir="$2" --enable-logging=stderr --log-level=0 --dump-dom) browser ends=20
    # the sandbox cannot be had by the user root
    [ "$(id -u)" -ne 0 ] || words+=(--no-sandbox)
    HOME=$2 timeout -k 5 240 chromium "${words[@]}" "file://$(readlink -f -- "$1")" >"$2.dumped" &
    browser=$!
    while kill -0 "$browser" 2>/dev/null && [ "$ends" -gt 0 ]; do
        sleep 0.1
        ! whole "$2.dumped" || ends=$((ends - 1))
    done
    kill "$browser" 2>/dev/null
    wait "$browser" 2>/dev/null
    whole "$2.dumped" && cat "$2.dumped"
}

# whole FILE: it is a page to its end
whole() { [ "$(tail -c 8 "$1")" = '</html>' ]; }
