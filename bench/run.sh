#!/bin/sh
# Runs the two measurements of speed, one after the other: the ciphers and MACs, then logins and long schedules.
# README.md beside it says what is measured and what each needs.
set -eu
. "$(dirname "$(readlink -f "$0")")/../.ci/help.sh"

here=$(cd "$(dirname "$0")" && pwd)
"$here/cipher_speed.sh"
"$here/login_speed.sh"
