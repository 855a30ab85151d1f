# shellcheck shell=bash
# Sourced by .ci/run, the scripts of tests/ and, over tools/command.sh, the commands. What the proved crates are built into is for x86-64 Linux:
# elsewhere it is compiled for with Debian's cross compiler and run under qemu-user.
# shellcheck disable=SC2034,SC2154  # me, root and usage are set, runner, compiler, program, model and library read by the script that sources this

# Says one line under the name `me` of the script that sources this, and ends with a status.
give_up() {
    printf '%s: %s\n' "$me" "$2" >&2
    exit "$1"
}

native() {
    [[ $(uname -s) = Linux && $(uname -m) = x86_64 ]]
}

# The status where a package is missing and cannot be installed.
lacking=1

# want COMMAND-OR-FILE PACKAGE..: installs the packages where the command or the file is missing.
want() {
    local thing=$1
    shift
    if command -v -- "$thing" >/dev/null || [[ -e $thing ]]; then
        return
    fi
    if ! command -v apt-get >/dev/null; then
        give_up "$lacking" "$thing is missing and there is no apt-get: install $* by hand"
    fi
    if [[ $(id -u) != 0 ]]; then
        give_up "$lacking" "$thing is missing: run 'apt-get install $*' as root"
    fi
    printf '%s: installs %s\n' "$me" "$*" >&2
    export DEBIAN_FRONTEND=noninteractive
    if ! { apt-get install -y --no-install-recommends "$@" || { apt-get update && apt-get install -y --no-install-recommends "$@"; }; } \
        >&2 </dev/null; then
        give_up "$lacking" "apt-get cannot install $*"
    fi
    if ! command -v -- "$thing" >/dev/null && [[ ! -e $thing ]]; then
        give_up "$lacking" "$thing is still missing after installing $*"
    fi
}

# want_packages NAME..: installs those of the packages that are missing, in one go; where all are there nothing is fetched.
want_packages() {
    local name missing=()
    for name in "$@"; do
        [[ $(dpkg-query -W -f '${db:Status-Status}' "$name" 2>/dev/null) = installed ]] || missing+=("$name")
    done
    if [[ ${#missing[@]} -gt 0 ]]; then
        want "/usr/share/doc/${missing[-1]}" "${missing[@]}"
    fi
}

# want_all: every package that the gate's tests need, so that apt-get is asked once.
want_all() {
    local names=(python3 python3-crccheck gcc libc6-dev umockdev gir1.2-umockdev-1.0 python3-gi i2c-tools python3-smbus2
        python3-pip python3-venv python3-numpy python3-pandas python3-matplotlib python3-dask python3-distributed python3-pytest
        python3-hypothesis python3-selenium chromium chromium-driver mypy sigrok-cli mandoc)
    command -v rustc >/dev/null || names+=(rustc)
    native || names+=(qemu-user libc6-amd64-cross gcc-x86-64-linux-gnu libc6-dev-amd64-cross binutils-x86-64-linux-gnu)
    want_packages "${names[@]}"
}

# Sets `runner`, the words that come before an x86-64 program.
want_runner() {
    runner=()
    if ! native; then
        local libraries=/usr/x86_64-linux-gnu/lib
        want qemu-x86_64 qemu-user libc6-amd64-cross
        want "$libraries/libc.so.6" libc6-amd64-cross
        runner=(qemu-x86_64 "$libraries/ld-linux-x86-64.so.2" --library-path "$libraries")
    fi
}

# Sets `compiler`, the words of a C compiler for x86-64 Linux.
want_compiler() {
    if native; then
        want gcc gcc libc6-dev
        compiler=(gcc)
    else
        want x86_64-linux-gnu-gcc gcc-x86-64-linux-gnu libc6-dev-amd64-cross
        want /usr/x86_64-linux-gnu/include/stdio.h libc6-dev-amd64-cross
        compiler=(x86_64-linux-gnu-gcc)
    fi
}

# want_program NAME: proves the program NAME of the repository at `root` and what it stands on, and builds it, unless it is newer than every source; sets `program`.
want_program() {
    program=$root/target/bin/$1
    if newest "bin/$1"; then
        return
    fi
    proved "$1"
    built "$1" run
    mkdir -p "$root/target/bin"
    cp "$root/crates/$1/out/$1" "$program"
}

# want_libraries NAME..: the same of target/staticlib/libNAME.a. Where there are several, every crate is proved first, side by side; then they are built one after the
# other, since rt lets no two commands into a crate.
want_libraries() {
    local name crate left old=()
    for name in "$@"; do
        newest "staticlib/lib$name.a" || old+=("$name")
    done
    left=${#old[@]}
    case $left in
    0) return ;;
    1) proved "$(exporting "${old[0]}")" ;;
    *) proved ;;
    esac
    mkdir -p "$root/target/staticlib"
    for name in "${old[@]}"; do
        crate=$(exporting "$name")
        built "$crate" lib
        cp "$root/crates/$crate/out/lib$crate.a" "$root/target/staticlib/lib$name.a"
        left=$((left - 1))
        printf '%s: %s is built, %d left\n' "$me" "$name" "$left" >&2
    done
}

# exporting NAME: the crate that libNAME.a is built from, the thin one above NAME where other crates stand on NAME.
exporting() {
    case $1 in
    season_c | values_c) echo "${1%_c}_for_c" ;;
    feed | i2c_lists | season_stream | stream | why) echo "$1_c" ;;
    *) echo "$1" ;;
    esac
}

# built CRATE VERB: rt lib, or rt run, of a crate. What rt says goes to a log, what the program writes nowhere.
built() {
    local log=target/log/$1.log
    mkdir -p "$root/target/log"
    (cd "$root/crates/$1" && if [[ $2 = run ]]; then rt run >/dev/null; else rt lib; fi) </dev/null >"$root/$log" 2>&1 ||
        give_up 1 "rt $2 in crates/$1 does not pass: $log has what it said"
}

# How many more lanes than processors there are side by side: some wait for files, a browser or a bus; and how many seconds pass between two looks at them.
more_lanes=1
pause=0.1

# side_by_side FOLDER WORK TOLD NAME..: runs `WORK NAME` for each name, as many at once as there are processors and four at most, and `more_lanes`. What one says goes
# to FOLDER/NAME.log, its status and seconds to FOLDER/NAME.end. As they end, in the order of the names, `TOLD FOLDER NAME SECONDS` is called. Sets `fell` to those
# that did not end with 0. Not to be called after `if` or before `||`, where bash would pass over what goes wrong in them.
side_by_side() {
    local folder=$1 work=$2 told=$3 name status seconds lanes lane
    shift 3
    lanes=$(nproc)
    lanes=$(((lanes < 4 ? lanes : 4) + more_lanes))
    rm -rf "$folder"
    mkdir -p "$folder"
    for ((lane = 0; lane < lanes; lane++)); do
        in_lane "$folder" "$work" "$@" &
    done
    fell=()
    for name in "$@"; do
        until [[ -e $folder/$name.end || -z $(jobs -pr) ]]; do
            sleep "$pause"
        done
        status=1 seconds=0
        [[ ! -e $folder/$name.end ]] || read -r status seconds <"$folder/$name.end"
        [[ $status = 0 ]] || fell+=("$name")
        "$told" "$folder" "$name" "$seconds"
    done
    wait
}

# in_lane FOLDER WORK NAME..: those of the names that no other lane has taken.
in_lane() {
    local folder=$1 work=$2 name began status
    shift 2
    for name in "$@"; do
        mkdir "$folder/$name" 2>/dev/null || continue
        began=$SECONDS status=0
        ("$work" "$name") >"$folder/$name.log" 2>&1 </dev/null &
        wait $! || status=$?
        echo "$status $((SECONDS - began))" >"$folder/$name/end"
        mv "$folder/$name/end" "$folder/$name.end"
    done
}

# How many checks rt is to start together: as many as there are processors, and as memory has room for at 2.5 GB each.
at_a_time() {
    local room jobs
    room=$(awk '/^MemAvailable:/ { print int($2 / 2500000) }' /proc/meminfo)
    jobs=$(nproc)
    ((jobs <= room)) || jobs=$room
    ((jobs >= 1)) || jobs=1
    echo "$jobs"
}

# The archives whose calls include/toralinge.h declares.
calls=(feed why season_c plain chip_c i2c_lists season_scans stream season_stream record_c values_c)

# want_calls: all of them in one library, with those of c/ that are text; sets `library`.
want_calls() {
    local name room archiver=ar parts=()
    native || archiver=x86_64-linux-gnu-ar
    want "$archiver" "$(native && echo binutils || echo binutils-x86-64-linux-gnu)"
    want_libraries "${calls[@]}"
    for name in "${calls[@]}"; do
        parts+=("$root/target/staticlib/lib$name.a")
    done
    library=$root/target/libtoralinge.a
    if [[ -e $library && -z $(find "${parts[@]}" "$root/c" "$root/include" -newer "$library") ]]; then
        return
    fi
    want_compiler
    room=$(mktemp -d)
    "${compiler[@]}" -std=c99 -O2 -fPIC -Wall -Wextra -Werror -pedantic "-I$root/include" -c "$root/c/toralinge.c" -o "$room/words.o"
    for name in "${parts[@]}"; do
        (cd "$room" && "$archiver" x "$name")
    done
    rm -f "$library"
    "$archiver" rcs "$library" "$room"/*.o
    rm -rf "$room"
}

# want_shared: the same as a shared library; sets `shared`.
want_shared() {
    want_calls
    want_compiler
    shared=$root/target/libtoralinge.so
    if [[ ! -e $shared || $library -nt $shared ]]; then
        "${compiler[@]}" -shared -Wl,--whole-archive "$library" -Wl,--no-whole-archive -Wl,-soname,libtoralinge.so -o "$shared"
    fi
}

# want_model [FILE]: makes the model of tests/model there, by default as target/tests/model, unless it is newer than its sources, and sets `model`.
want_model() {
    model=${1:-$root/target/tests/model}
    if [[ -x $model && -z $(find "$root/tests/model" -name '*.rs' -newer "$model" -print -quit) ]]; then
        return
    fi
    want rustc rustc
    mkdir -p "${model%/*}"
    rm -f "$model"
    rustc -O --edition 2021 "$root/tests/model/main.rs" -o "$model"
}

# want_bus: umockdev with its binding for Python, and i2c-tools where they can be installed.
want_bus() {
    local triplet
    triplet=$(/usr/bin/python3 -c 'import sysconfig; print(sysconfig.get_config_var("MULTIARCH"))')
    want umockdev-run umockdev
    want /usr/lib/python3/dist-packages/gi python3-gi
    want "/usr/lib/$triplet/girepository-1.0/UMockdev-1.0.typelib" gir1.2-umockdev-1.0
    if [[ $(id -u) = 0 ]]; then
        want /usr/sbin/i2cget i2c-tools
    fi
}

# newest FILE: this file of target/ is there, and newer than every source.
newest() {
    local file=target/$1
    if [[ -e $root/$file && -z $(cd "$root" && find crates crates.txt -regex 'crates/[^/]*/out' -prune -o \
        -type f \( -name '*.rt' -o -name '*.antt' -o -name crates.txt \) -newer "$file" -print -quit) ]]; then
        return
    fi
    command -v rt >/dev/null || give_up 1 "$file is to be built, and there is no rt to prove and build it"
    return 1
}

# many_crates [CRATE]: how many crates there are, or how many the crate stands on, itself among them.
many_crates() {
    awk -v top="${1-}" '
        /^[^#]*:/ { sub(/#.*/, ""); crate = $1; sub(/:.*/, "", crate); sub(/^[^:]*:/, ""); below[crate] = $0; many++ }
        END { print top == "" ? many : split(below[top], words, " ") + 1 }
    ' "$root/crates.txt"
}

# proved [CRATE]: rt proves the crate and all that it stands on, or every crate, side by side and where they changed, with a line for each that is proved anew and how
# many are left; all else that rt says goes to a log. A crate that fails is named; whether it is needed, the build that comes after this tells.
proved() {
    local log=target/log/${1:-all}-below.log left
    mkdir -p "$root/target/log"
    left=$(many_crates "$@")
    printf '%s: rt all check proves %d crates where they changed; %s has what it says\n' "$me" "$left" "$log" >&2
    (cd "$root/${1:+crates/$1}" && rt all check --jobs "$(at_a_time)" 2>&1) </dev/null | tee "$root/$log" | told_of_crates "$left" >&2 || true
}

# told_of_crates LEFT: what is to be seen of what rt all check says. First it reads the code of the crates that nothing stands on, which takes some seconds each.
told_of_crates() {
    local line crate='' left=$1 heads=0 ended=''
    while IFS= read -r line; do
        case $ended$line in
        'rt: waiting '*) printf '%s: %s\n' "$me" "${line#rt: }" ;;
        only=*) heads=$((heads + 1)) && printf '%s: before it proves, rt has read %d of the highest crates\n' "$me" "$heads" ;;
        '== summary') ended='in the summary ' ;;
        '== '*) crate=${line#== } left=$((left - 1)) ;;
        logic=proved*) printf '%s: %s is proved, %d left\n' "$me" "$crate" "$left" ;;
        'in the summary '*': failed '* | 'in the summary '*': not run, '*) printf '%s: %s\n' "$me" "$line" ;;
        esac
    done
}

# want_input WORD..: one file at most, which can be read, or standard input that is no terminal; `usage` says what is asked for.
want_input() {
    if [[ $# -gt 1 ]]; then
        give_up 2 "one file at most: $usage"
    elif [[ $# -eq 1 ]]; then
        [[ -e $1 ]] || give_up 2 "no such file: $1"
        [[ ! -d $1 && -r $1 ]] || give_up 2 "not a file that can be read: $1"
    elif [[ -t 0 ]]; then
        give_up 2 "nothing to read: $usage"
    fi
}

# want_bridge: where the machine's own Python cannot load the library, the program that loads it for Python under the emulator.
want_bridge() {
    local bridge=$root/target/toralinge-bridge
    if native; then
        return
    fi
    want_runner
    want_compiler
    if [[ ! -e $bridge || $root/python/bridge.c -nt $bridge ]]; then
        "${compiler[@]}" -std=c99 -O2 -Wall -Wextra -Werror -pedantic "$root/python/bridge.c" -o "$bridge"
    fi
}

# want_python: what the Python package and its tests are made of, in one go.
want_python() {
    local pair place=/usr/lib/python3/dist-packages last='' missing=()
    for pair in "$place/pip python3-pip" "/usr/share/doc/python3-venv python3-venv" "$place/numpy python3-numpy" \
        "$place/pandas python3-pandas" \
        "$place/matplotlib python3-matplotlib" "$place/dask python3-dask" "$place/distributed python3-distributed" "$place/pytest python3-pytest" \
        "$place/hypothesis python3-hypothesis" "$place/selenium python3-selenium" "/usr/bin/chromium chromium" "/usr/bin/chromedriver chromium-driver" \
        "/usr/bin/mypy mypy"; do
        if [[ ! -e ${pair% *} ]]; then
            last=${pair% *}
            missing+=("${pair#* }")
        fi
    done
    if [[ -n $last ]]; then
        want "$last" "${missing[@]}"
    fi
}
