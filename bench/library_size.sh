#!/bin/sh
# Sizes of the library for C: the code of a peer and of a peer's method alone, linked to the C library by name, less that
# of a program that calls nothing of it; the octets of an end. It takes the archive that TUV_LIBRARY names, or proves and
# builds the library. With SOURCE, the unpacked source package `wpa` 2.10, the same of wpa_supplicant's peer over its own
# ciphers, and what the ends of both machines hold and how deep into the stack they go.
#
#   bench/library_size.sh [SOURCE]
set -eu
# shellcheck source=bench/common.sh
. "$(dirname "$(readlink -f "$0")")/common.sh"

join_library
strict='-std=c11 -O2 -Wall -Wextra -Werror -Wl,--gc-sections'

# The code of library_size.c by this word, with these files.
code() {
    word=$1
    shift
    # shellcheck disable=SC2086
    gcc $strict -D"$word" -I"$here/c" -I"$here/c/hostapd" -o "$work/$word" "$here/bench/library_size.c" "$@"
    size "$work/$word" | awk 'NR == 2 { print $1 }'
}

empty=$(code EMPTY)
echo "a peer         $(($(code PEER "$work/libtuvaddri.a") - empty)) octets of code"
echo "a method alone $(($(code METHOD "$work/libtuvaddri.a") - empty)) octets of code"
gcc -I"$here/c" -o "$work/end" -x c - -x none "$work/libtuvaddri.a" <<'END'
#include <stdio.h>
#include "tuvaddri.h"
int main(void) { printf("an end         %zu octets\n", tuv_end_size()); }
END
"$work/end"
[ $# = 1 ] || exit 0

# (both ends' files, of which the peer's program keeps what it calls)
theirs='utils/common.c utils/wpabuf.c utils/os_unix.c utils/wpa_debug.c
eap_common/eap_common.c eap_common/eap_gpsk_common.c eap_common/eap_psk_common.c
eap_peer/eap.c eap_peer/eap_methods.c eap_peer/eap_gpsk.c eap_peer/eap_psk.c
eap_server/eap_server.c eap_server/eap_server_methods.c eap_server/eap_server_identity.c
eap_server/eap_server_gpsk.c eap_server/eap_server_psk.c
crypto/aes-omac1.c crypto/aes-ctr.c crypto/aes-eax.c crypto/aes-encblock.c crypto/aes-internal.c
crypto/aes-internal-enc.c crypto/sha256-prf.c crypto/sha256-internal.c crypto/sha256.c crypto/sha1-internal.c
crypto/sha1.c crypto/md5-internal.c crypto/md5.c crypto/crypto_internal.c crypto/tls_none.c'
settings='-DIEEE8021X_EAPOL -DEAP_PSK -DEAP_GPSK -DEAP_GPSK_SHA256 -DEAP_SERVER -DEAP_SERVER_IDENTITY -DEAP_SERVER_PSK
-DEAP_SERVER_GPSK -DCONFIG_NO_STDOUT_DEBUG -DCONFIG_NO_WPA_MSG -DCONFIG_NO_RANDOM_POOL -DCONFIG_SHA256
-DCONFIG_NO_CONFIG_BLOBS -DCONFIG_CRYPTO_INTERNAL'
mkdir "$work/theirs"
for it in $theirs ../hostapd/supplicant_peer.c ../hostapd/hostapd_server.c; do
    case $it in ../*) from=$here/c/${it#../} ;; *) from=$1/src/$it ;; esac
    # shellcheck disable=SC2086
    gcc -Os -w -ffunction-sections -fdata-sections $settings -I"$1/src" -I"$1/src/utils" -I"$here/c/hostapd" -c "$from" \
        -o "$work/theirs/$(echo "$it" | tr /. __).o"
done
echo "hostapd's peer $(($(code THEIRS "$work/theirs"/*.o) - empty)) octets of code"
# shellcheck disable=SC2086
gcc $strict -I"$here/c" -I"$here/c/hostapd" -o "$work/room" "$here/bench/library_room.c" "$here/c/hostapd/library_ends.c" \
    "$work/theirs"/*.o "$work/libtuvaddri.a"
"$work/room"
