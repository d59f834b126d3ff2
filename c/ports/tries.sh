# shellcheck shell=sh disable=SC2034,SC2086,SC2154
# The part of c/check for the processors of retarget.py, under qemu: read by it, with its functions and variables. `draw` says
# how much is drawn: `short`, or `whole` for c/check ports.

# The emulator of programs for such a processor.
emulator() { if has "qemu-$1"; then echo "qemu-$1"; else echo "qemu-$1-static"; fi; }

# Each target, its emulator, and the words by which programs for Linux are compiled for it. (A Cortex-M's code is linked to
# 32-bit Arm's C library.)
ports() {
    calls=${FUZZ_CALLS:-20000} through=''
    [ "$draw" = short ] || calls=${FUZZ_CALLS:-1000000}
    arm="arm-linux-gnueabihf-gcc -march=armv7-a -mfpu=neon -mfloat-abi=hard"
    port armv7-unknown-linux-gnueabihf arm "$arm"
    port riscv64-unknown-linux-gnu riscv64 riscv64-linux-gnu-gcc
    for it in thumbv6m thumbv7m thumbv7em thumbv8m.main; do port "$it-none-eabi" arm "$arm -Wl,--no-warn-mismatch"; done
    port thumbv7em-none-eabi-cached arm "$arm -Wl,--no-warn-mismatch"
    riscv32
}

lacks() {
    [ "$how" != --dist ] || [ -e "$root/dist/$target" ] || { pass_over "$target, which dist/ has not" && return; }
    for it in "$@"; do
        has "$it" || { pass_over "$target, since $it is not here" && return; }
    done
    return 1
}

port() {
    target=$1 runner=$(emulator "$2") compiler=$3 static=-static told=" by $1"
    place=$work/$target emulated=$runner
    lacks "$runner" "${compiler%% *}" && return
    mkdir -p "$place"
    try "the library for $target" build_port
    elsewhere "$target"
    secrets_of_port
    try "the registers that stay$told" find_registers
    case $draw$target in
    whole*) try "one way through the code$told" one_way 9 ;;
    *thumbv6m* | *riscv64*) try "one way through the code$told" one_way 3 ;;
    esac
    case $target in
    *-none-*) cortex ;;
    *) figures ;;
    esac
}

build_port() {
    make_for "--target $target" "$target" || return 1
    case $target in
    riscv32*) cp "$made/libtuvaddri.a" "$place" ;;
    *-linux-*) cp "$made"/libtuvaddri.* "$place" ;;
    *) CC="$compiler -static" "$here/library" join "$made/libtuvaddri_c.a" "$place" ;;
    esac
}

secrets_of_port() {
    try "what becomes of keys$told" compile "secrets-now" "$here/secrets.c" "$place/libtuvaddri.a"
    [ "$draw" = short ] || try "keys are found where the stack isn't cleared$told" find_what_is_left
    try "no key is left$told" find_left clear now
}

one_way() {
    compile ways "$here/ports/ways.c" ${2-} "$place/libtuvaddri.a" && python3 -B "$here/ports/ways.py" "$1" "$emulated" "$place/ways"
}

# 32-bit RISC-V, for which Debian has no C library of Linux: picolibc's, by a start of our own.
riscv32() {
    target=riscv32-unknown-none-elf runner=$(emulator riscv32) static='' told=" by riscv32-unknown-none-elf"
    place=$work/$target compiler=$(cross_of "$target")
    lacks "$runner" "${compiler%% *}" && return
    mkdir -p "$place"
    started="-nostartfiles $here/ports/start_riscv32.S --oslib=semihost"
    # (qemu writes what comes by semihosting to its standard error)
    printf '#!/bin/sh\nexec %s "$@" 2>&1\n' "$runner" >"$work/riscv32-run"
    chmod +x "$work/riscv32-run"
    emulated=$runner runner=$work/riscv32-run machine=$work/riscv32-run
    compiler="$compiler -ffunction-sections -Wl,--gc-sections,--defsym=__stack_size=0x10000 $(board_at 0 0x20000000)"
    try "the library for $target" build_port
    pool="$started -DTUV_POOL=65536 $here/pool.c"
    try "the programs for $target" compile_over_pool
    compare_logins "$target"
    try "the words$told" compare_words
    pass_over "random calls and the search for keys$told, which has no C library of Linux here"
    [ "$draw" = short ] || try "one way through the code$told" one_way 9 "$pool"
    boards
}

# (what the examples free is the pool's)
compile_over_pool() {
    compile both -Dfree=rattle_dealloc $pool "$here/examples/both.c" "$place/libtuvaddri.a" &&
        compile words $pool "$here/examples/words.c" "$place/libtuvaddri.a"
}

# The words by which c/library compiles for a target.
cross_of() { PYTHONPATH=$here/ports python3 -B -c 'import retarget, sys; print(retarget.PORTS[sys.argv[1]].cc)' "$1"; }

# Where a board of qemu has its flash and its memory.
board_at() {
    echo "-Wl,-z,noexecstack,--defsym=__flash=$1,--defsym=__flash_size=0x200000,--defsym=__ram=$2,--defsym=__ram_size=0x200000"
}

# The examples for a machine without a system, on boards of qemu; what they take is compared with c/README's figures.
boards() {
    python3 -B "$here/ports/packets.py" "$work/both" >"$work/packets.h"
    for end in peer server; do try "a $end on a board$told" run_on_board; done
    figures
}

cortex() {
    compiler=$(cross_of "$target") static=''
    started="--crt0=semihost --oslib=semihost"
    model=mps2-an386 flash=0 ram=0x20000000
    case $target in thumbv8m*) model=mps2-an505 flash=0x10000000 ram=0x38000000 ;; esac
    machine="qemu-system-arm -M $model -nographic -monitor none -serial none -semihosting-config enable=on,target=native -kernel"
    lacks "${compiler%% *}" qemu-system-arm && return
    if [ ! -e "$(${compiler%% *} -print-file-name=picolibc.specs)" ]; then
        pass_over "a board$told, since picolibc is not here"
        return
    fi
    compiler="$compiler -ffunction-sections -fdata-sections -Wl,--gc-sections,--defsym=__stack_size=0x10000 $(board_at $flash $ram)"
    boards
    case $draw$target in whole*thumbv6m-* | *thumbv7em-none-eabi) skips ;; esac
    [ "$target" != thumbv7em-none-eabi ] || [ "$how" = --dist ] || try "a level whose frames are too deep" refuse_level
}

# One instruction left out, in logins of one without the key.
skips() {
    by=python3
    python3 -c 'import elftools, unicorn' 2>/dev/null || by=/usr/bin/python3	# (Debian's)
    if ! $by -c 'import elftools, unicorn' 2>/dev/null; then
        pass_over "an instruction left out$told, since python3-unicorn or python3-pyelftools is not here"
        return
    fi
    whole=whole
    [ "$draw" = whole ] || whole=''
    try "an instruction left out$told" leave_out
}

leave_out() {
    compile skips -Os -nostartfiles -Wl,-e,main "$(board_at 0x10000 0x20000000)" \
        -DTUV_POOL=32768 "$here/pool.c" "$here/ports/skips.c" "$made/libtuvaddri.a" &&
        $by -B "$here/ports/skips.py" "$here/skips.txt" "$target" "$place/skips" $whole
}

compile_for_board() {
    compile "$1" -Os -I"$here/examples" -I"$work" $2 "$here/examples/bare_$end.c" "$here/ports/board.c" "$made/libtuvaddri.a"
}

# A run of an end, and its code by itself: `END code N memory N stack N`.
run_on_board() {
    is_server=0
    [ "$end" = peer ] || is_server=1
    compile_for_board "$end-code" "-nostartfiles -Wl,-e,main -DBOARD_NONE" &&
        compile_for_board "$end" "$started -DIS_SERVER=$is_server -DTUV_POOL=32768 -DTUV_POOL_MOST $here/pool.c" &&
        timeout 600 $machine "$place/$end" >"$place/$end.said" 2>&1 || { cat "$place/$end.said"; return 1; }
    code=$(size "$place/$end-code" | awk 'NR == 2 { print $1 }')
    sed -n "s/^memory/$end code $code memory/p" "$place/$end.said" | tee -a "$place/figures"
    grep -q "^$end " "$place/figures"
}

figures() {
    [ "$how" != --dist ] || { pass_over "the figures of c/README for $target: dist/ has no bound of the stack" && return; }
    try "the figures of c/README for $target" compare_figures
    grep '^c: ' "$work/said" || true
}

# The row of c/README has, of a peer and of a server, the code, the memory and the stack, and the bound of the stack over all
# calls, in octets: it takes at most that, and at least nine tenths.
compare_figures() {
    [ ! -e "$place/figures" ] || awk '{ printf "%s ", $3 " " $5 " " $7 }' "$place/figures" >"$place/found"
    awk '{ print $1; exit }' "$made/stack.txt" >>"$place/found"
    sed -n "s/^| \`$target\` |//p" "$here/README.md" | tr -d ',|' >"$place/told"
    echo "c: $target takes $(cat "$place/found")"
    paste -d ' ' "$place/found" "$place/told" | awk '
        { half = NF / 2; for (n = 1; n <= half; n++) if ($n > $(n + half) || $n < 0.9 * $(n + half)) wrong = 1 }
        END { exit half < 1 || half != int(half) || wrong }'
}

# (what is deeper than tuv_clear_stack clears)
refuse_level() {
    PORT_FLAGS=-Oz make_for "--target thumbv7em-none-eabi" refused 2>"$work/refused-level" && return 1
    cat "$work/refused-level"
    grep -q 'octets of stack' "$work/refused-level"
}
