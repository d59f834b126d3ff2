#!/bin/sh
# Counts the instructions of the ciphers and MACs, and compares them with OpenSSL's. README.md beside it says
# what is measured, and ciphers.txt what each row is.
set -eu
# shellcheck source=bench/common.sh
. "$(dirname "$(readlink -f "$0")")/common.sh"

needs rt valgrind openssl cc awk
crates='octet_lists aes_block cmac_mac hmac_mac login_keys'
make_program cipher_count "$crates" "$crates" rt run
# The same by OpenSSL's library: its code is chosen by the processor's features that OPENSSL_ia32cap leaves.
cc -O2 -o "$work/openssl" "$here/bench/openssl.c" -lcrypto
openssl version

# Of one operation: the difference of two runs, and the least of seven.
instructions_of() { each_of "$4" $((3 * $4)) "$1" "$2" "$3"; }
nanoseconds_of() {
    for _ in 1 2 3 4 5 6 7; do "$@"; done | awk -v count="$4" 'NR == 1 || $2 < least { least = $2 } END { printf "%.0f", least / count }'
}

# A row: its name, what is measured, the operation, its size, how often. OpenSSL is without the instructions for AES, SHA,
# carry-less multiplication, AVX and BMI: once by SSSE3, and once without that too.
row() {
    name=$1 measure=$2
    shift 2
    set -- "$@" "$($measure "$crate/out/cipher_count" "$@")"
    case $1 in
    aes | aes-key | cmac | hmac)
        set -- "$@" "$(OPENSSL_ia32cap='~0x1200000200000000:~0x20000128' && export OPENSSL_ia32cap && $measure "$work/openssl" "$1" "$2" "$3")" \
            "$(OPENSSL_ia32cap='~0x1200020200000000:~0x20000128' && export OPENSSL_ia32cap && $measure "$work/openssl" "$1" "$2" "$3")"
        awk -v name="$name" -v own="$4" -v one="$5" -v other="$6" \
            'BEGIN { printf "%-32s%12d%12d%12d%8.2f%8.2f\n", name, own, one, other, own / one, own / other }'
        ;;
    *) printf '%-32s%12s\n' "$name" "$4" ;;
    esac
}

printf '%-32s%12s%12s%12s%8s%8s\n' instructions ours ssse3 portable ratio ratio
while IFS='|' read -r name what size count; do row "$name" instructions_of "$what" "$size" "$count"; done <<'END'
a block by lanes|aes|0|500
a block by tables|tables|0|500
a key by lanes, and a block|aes-key|0|500
a key by tables, and a block|tables-key|0|500
CMAC of 64 octets|cmac|64|100
the same under a kept key|cmac-kept|64|100
CMAC of 1 MiB|cmac|1048576|1
HMAC of 64 octets|hmac|64|100
GKDF of 160 octets, suite 1|gkdf|0|20
EAP-GPSK's keys, suite 1|gpsk-keys-1|0|20
EAP-GPSK's keys, suite 2|gpsk-keys-2|0|20
END
printf '%-32s%12s%12s%12s%8s%8s\n' nanoseconds ours ssse3 portable ratio ratio
row 'CMAC of 64 octets' nanoseconds_of cmac 64 200000
row 'CMAC of 1 MiB' nanoseconds_of cmac 1048576 20
row 'HMAC of 64 octets' nanoseconds_of hmac 64 200000
