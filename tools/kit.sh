# shellcheck shell=bash
# What ./run, ./library, tests/trust and the gate share: how they find the Rattle kit, sum the sources, walk the crates, wait for each other,
# call rt and tell how far it is, and take what the gate has proved. It is sourced by a command that has set root, the folder of this
# repository, and that has say WORD..., which prints a line, and fail STATUS WORD..., which prints one and ends.
# shellcheck disable=SC2154 # root is the command's

# ---- what the machine must have

# need TOOL PACKAGE: fails with 2 if a command is missing, and says where it comes from
need() { command -v "$1" >/dev/null || fail 2 "$1 is missing; it is in Debian's package $2"; }

# find_kit: rt and kit, found as rt itself finds it, both empty if there is none; tools, the kit's tools
find_kit() {
    machine=$(uname -m)
    kit='' tools=''
    rt=$(command -v rt) || rt=${RATTLE_HOME:+$RATTLE_HOME/bin/rt}
    [ -x "$rt" ] || {
        rt=''
        return
    }
    rt=$(readlink -f -- "$rt")
    kit=$(dirname -- "$(dirname -- "$rt")")
    tools=$kit/toolchain
}

# need_kit: fails with 2 if there is no kit for this machine
need_kit() {
    [ -n "$kit" ] || fail 2 "the Rattle kit is missing: its command rt is not on the PATH; put its folder bin on the PATH or name the" \
        "kit's folder in RATTLE_HOME"
    [ -f "$kit/KIT-ID" ] && [ -d "$tools/bin" ] || fail 2 "the Rattle kit at $kit has no KIT-ID or no toolchain: it is not whole; unpack it again"
    [ "$machine" = x86_64 ] || fail 2 "the Rattle kit runs on x86_64, and this machine is $machine"
    need python3 python3
}

# ---- sources and crates

# sources FILE...: a checksum of the names and contents of the crates, of their list and of these files of the repository; what rt makes is
# no part of them
sources() (
    set -o pipefail
    cd "$root" && find crates crates.txt "$@" -path 'crates/*/out' -prune -o -type f -exec sha256sum {} + | sort | sha256sum | cut -d ' ' -f 1
)

# crates_of NAME...: these crates and all that they stand on, the lowest first, one a line, in the order in which rt goes through them
crates_of() {
    awk -v names="$*" '
        { sub(/#.*/, "") }
        split($0, side, ":") == 2 { split(side[1], head, " "); deps[head[1]] = side[2] }
        function visit(name,    part, n, i) {
            if (!(name in deps) || name in seen) return
            seen[name] = 1
            n = split(deps[name], part, " ")
            for (i = 1; i <= n; i++) visit(part[i])
            print name
        }
        END { n = split(names, top, " "); for (i = 1; i <= n; i++) visit(top[i]) }' "$root/crates.txt"
}

# below NAME: all that this crate stands on, the lowest first, one a line
below() { crates_of "$1" | grep -vxF -- "$1"; }

# uses NAME: the crates that its line of crates.txt names, one a line
uses() { sed -nE "s/#.*//; s/^[[:space:]]*$1([[:space:]][^:]*)?:(.*)/\\2/p" "$root/crates.txt" | tr -s ' ,\t' '\n' | sed '/^$/d'; }

# ---- one at a time

# lock_target SO: the folder target/ is for one rt. rt and what it starts hold this lock too, so it outlasts a command that is
# killed. The file may go while it is waited for, with all of target/; then the next one is taken.
lock_target() {
    local lock=$root/target/run.lock
    { mkdir -p "$root/target" && touch "$lock"; } 2>/dev/null || fail 1 \
        "the proof comes first, and nothing can be written to $root/target; copy this folder to a place where you may write, and start there"
    while exec 9>>"$lock"; do
        flock -n 9 || {
            say "another ./run or ./library is proving here; waiting for it to end"
            flock 9
        } || break
        [ ! -e /dev/fd/9 ] || [ "$lock" -ef /dev/fd/9 ] && return
    done
    fail 1 "$lock cannot be locked, $1"
}

unlock_target() { exec 9>&-; }

# ---- what the gate has proved

# The gate's rt ci leaves in crates/NAME/out/ the libraries and the programs that it has proved, but keeps nothing that says so. So the gate
# writes a mark beside them: the kit, the sources, and the checksums of what was left.
passed() { echo "$root/target/ci.passed"; }

# left_by_ci: what the mark must say now. The file format of a library has the checksums of its other files.
left_by_ci() (
    set -o pipefail
    cat "$kit/KIT-ID" && sources && cd "$root" &&
        find crates -mindepth 3 -maxdepth 5 \( -path 'crates/*/out/rlib/*.rlib/format' -o -path 'crates/*/out/*' -type f -perm -u+x ! -name '*_tests' \) \
            -exec sha256sum {} + | sort
)

# mark_ci: for the gate alone, right after its rt ci has passed
mark_ci() { mkdir -p "$root/target" && left_by_ci >"$root/target/ci.new" && mv -f "$root/target/ci.new" "$(passed)"; }

# ci_holds: all is as the gate's rt ci left it
ci_holds() { [ -f "$(passed)" ] && left_by_ci 2>/dev/null | cmp -s - "$(passed)"; }

# libraries_of_ci NAME...: so it is, and every library below these crates is one that rt ci made, and no other command of rt
libraries_of_ci() {
    local crate
    ci_holds || return
    while IFS= read -r crate; do
        [ -f "$root/crates/$crate/out/rlib/$crate.rlib/format" ] && [ ! -e "$root/crates/$crate/out/rlib/stamp" ] || return
    done < <(for crate; do below "$crate"; done | sort -u)
}

# ---- rt, and how far it is

job='' # the process group of an rt that runs
sizes='' # the crates to be proved, each with the bytes of its code
told_of=-1 ends_at=0
began=$SECONDS

# to_prove NAME...: what is to be proved, by one call of rt or several: these crates and all below
to_prove() {
    local crate
    while IFS= read -r crate; do
        sizes+="$crate $(cat "$root/crates/$crate/src/"* 2>/dev/null | wc -c) "
    done < <(crates_of "$@")
}

# at_once: how many crates rt is to check beside each other, each of which may take 3 GB
at_once() {
    awk -v most="$(nproc)" '/^MemAvailable:/ { n = int($2 / 3000000) } END { print n < 1 ? 1 : n < most ? n : most }' /proc/meminfo
}

# how_far LOG: how many crates are proved, of how many, and the seconds that the others may still take. A crate takes as long as a
# thousand bytes of code and its own, as measured; how fast this machine is, is learnt from the crates that it has proved now, and
# at first it counts as two cores: 40 seconds for 20,000 bytes. What rt says of a crate stands behind a line == NAME.
how_far() {
    awk -v sizes="$sizes" -v seconds=$((SECONDS - began)) '
        BEGIN {
            n = split(sizes, part, " ")
            for (i = 1; i < n; i += 2) { size[part[i]] = 1000 + part[i + 1]; left += size[part[i]]; all++ }
        }
        function ends() {
            if (!(name in size) || name in seen || refused) return
            seen[name] = 1
            count++
            left -= size[name]
            if (proved) taken += size[name]
        }
        /^== / { ends(); name = $2; refused = proved = 0 }
        /^logic=not-proved|: error(:|\[)/ { refused = 1 }
        /^logic=proved / { proved = 1 }
        END { ends(); print count + 0, all + 0, int(left * (seconds + 40) / (taken + 20000)) }' "$1"
}

# span SECONDS: in words
span() { if [ "$1" -lt 100 ]; then echo "$1 s"; else echo "$((($1 + 30) / 60)) min"; fi; }

# tell LOG: a line that says how far rt is
tell() {
    local count all left more=''
    read -r count all left < <(how_far "$1")
    if [ "$count" -ne "$told_of" ]; then ends_at=$((SECONDS + left)); elif [ $((SECONDS - quiet)) -lt 15 ]; then return; fi
    told_of=$count quiet=$SECONDS
    # what takes longer than was thought may take longer yet
    left=$((ends_at - SECONDS > left / 4 ? ends_at - SECONDS : left / 4))
    [ "$left" -ge 5 ] || left=5
    [ "$count" -eq "$all" ] || more=", about $(span "$left") more"
    say "$count of $all crates proved, $((SECONDS - began)) s so far$more"
}

# call LOG FOLDER COMMAND...: a command of the kit in that folder, in a process group of its own; all that it says is added to LOG. Its
# status is the command's.
call() {
    local status quiet=$SECONDS
    set -m
    (cd "$root/$2" && exec "${@:3}") </dev/null >>"$1" 2>&1 &
    job=$!
    set +m
    while kill -0 "$job" 2>/dev/null; do
        [ -z "$sizes" ] || tell "$1"
        sleep 0.3
    done
    wait "$job"
    status=$?
    job=''
    [ -z "$sizes" ] || tell "$1"
    return "$status"
}

# prove_with LOG NAME...: rt checks these crates, and builds the libraries below them
prove_with() {
    local crate
    for crate in "${@:2}"; do
        call "$1" "crates/$crate" "$rt" all check --jobs "$(at_once)" || return
    done
}

# end_rt: ends a command of the kit that still runs, with all that it started
end_rt() { [ -z "$job" ] || { kill -- "-$job" && wait "$job"; } 2>/dev/null; }

# reason LOG: what rt said of the first failure, ten lines at most; if it names no place, its last lines
reason() {
    awk '
        { last[NR % 5] = substr($0, 1, 300) }
        n < 10 && (/: error(:|\[)/ || /: (no proof|not proved)/ || /it is not proved that/) { kept[++n] = substr($0, 1, 300) }
        END {
            if (n) for (k = 1; k <= n; k++) print "    " kept[k]
            else for (k = NR > 5 ? NR - 4 : 1; k <= NR; k++) print "    " last[k % 5]
        }' "$1" >&2
}

# ---- rattle itself, over libraries that are built

# rattle_words NAME: the words with which rt calls rattle for this crate, one a line
rattle_words() {
    local folder=$root/crates/$1 crate file=src/lib.rt
    [ ! -f "$folder/src/main.rt" ] || file=src/main.rt
    printf '%s\n' --crate-name "$1" "$file" --extern "std=$kit/rlibs/std.rlib" -L "dependency=$kit/rlibs"
    while IFS= read -r crate; do
        if [ -d "$root/crates/$crate" ]; then
            printf '%s\n' --extern "$crate=$root/crates/$crate/out/rlib/$crate.rlib"
        else
            printf '%s\n' --extern "$crate=$kit/rlibs/$crate.rlib"
        fi
    done < <(uses "$1")
    while IFS= read -r crate; do printf '%s\n' -L "dependency=$root/crates/$crate/out/rlib"; done < <(below "$1")
    printf '%s\n' --antt-project "$kit/rattle/logic/antt-project.json" --logic-built "$kit/logic_built" --jobs 2 --links "$1="
    # what a check of rt kept here
    [ ! -d "$folder/out/incremental" ] || printf '%s\n' --incremental "$folder/out/incremental"
}
