#!/usr/bin/env bash
# Encodes each text of tools/cases anew, and compares it with the files of that name that cases are tried on. NAME.KIND.json
# is the text of a message of examples/schema/KIND.capnp; the files are crates/*/data/NAME, in hexadecimal digits.
#
# `tools/message.py places` tells at which byte each field of such a file stands; changes of bytes in cases are written so.
set -u
top=$(cd "$(dirname "$0")/.." && pwd) || exit 1
command -v python3 >/dev/null || { echo "check-cases: skipped, there is no python3"; exit 0; }
checked=0
failed=0
for text in "$top"/tools/cases/*.json; do
    name=$(basename "$text" .json)
    kind=${name##*.}
    name=${name%.*}
    encoded=$("$top/tools/message.py" encode "$top/examples/schema/$kind.capnp" --hex <"$text")
    for file in "$top"/crates/*/data/"$name"; do
        [ -f "$file" ] || continue
        checked=$((checked + 1))
        if [ "$encoded" != "$(cat "$file")" ]; then
            echo "check-cases: $file isn't the encoding of $(basename "$text")"
            failed=$((failed + 1))
        fi
    done
done
echo "check-cases: $checked files compared, $failed differ"
[ "$failed" -eq 0 ]
