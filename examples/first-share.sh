#!/bin/sh
# Judges the header of Bitcoin's first block as a share of class 43, then the same share once more, and
# then one with the next nonce. The hash of that block begins with exactly 43 zero bits, so that the first
# is credited, the second is a duplicate, and the third is too weak.
#
# It takes the program that was built, or the program as it is written, before anything of it was proved: no
# machine has to wait for proofs here. `sh examples/build.sh` proves and builds it, and `rt ci` proves everything.
set -eu
cd "$(dirname "$0")/.."

# The previous hash, the merkle root and nbits of the first block, as they stand in its header.
job=00000000000000000000000000000000000000000000000000000000000000003ba3edfd7a7b12b27ac72c3e67768f617fc81bc3888a51323a9fb8aa4b1e5e4affff001d

# SubmitSharesStandard frames: header, channel 1, sequence number, job 1, nonce, ntime, version.
first=00801a1800000100000000000000010000001dac2b7c29ab5f4901000000
again=00801a1800000100000001000000010000001dac2b7c29ab5f4901000000
other=00801a1800000100000002000000010000001eac2b7c29ab5f4901000000

. examples/trial.sh
bytes() { printf '%s' "$1" | sed 's/../\\x&/g' | xargs -0 printf '%b'; }

bytes "$first$again$other" > "$work/shares"
"$program" solo fixed 43 "$job" < "$work/shares" > "$work/answers" || fail "the program ended with status $?"
answers=$(od -An -v -tx1 "$work/answers" | tr -d ' \n')

# An answer is 6 bytes of header, of which the fourth says how many follow.
for share in "$first" "$again" "$other"; do
    length=$((2 * (6 + 0x$(printf '%s' "$answers" | cut -c7-8))))
    answer=$(printf '%s' "$answers" | cut -c"1-$length")
    answers=$(printf '%s' "$answers" | cut -c"$((length + 1))-")
    echo "share:  $share"
    echo "answer: $answer"
    case $answer in
        00801c140000*) echo "credited, with 2^43 of work" ;;
        00801d*) printf 'refused as '
            bytes "$(printf '%s' "$answer" | cut -c31-)"
            echo ;;
        *) echo "no answer"; exit 1 ;;
    esac
done
