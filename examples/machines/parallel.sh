#!/usr/bin/env bash
# One round of one problem over GNU parallel: parallel.sh FILE CERT PARTS SECONDS [parallel's options, as --sshloginfile hosts]
# The open leaves of CERT are dealt to PARTS parts, each part searches for SECONDS, and CERT becomes what they found together.
# FILE and CERT lie where all machines see them. A part that is lost is left out. WCSPSOLVE names the program.
set -eu
program=${WCSPSOLVE:-wcspsolve}
file=$1 certificate=$2 parts=$3 seconds=$4
shift 4
# (a name of this round's own for each part, so that no other file is touched)
round=$certificate.round$$
names=()
for ((part = 1; part <= parts; part++)); do names+=("$round.part$part"); done
trap 'rm -f "${names[@]}"' EXIT
# (parallel hands its command to a shell, so each word is quoted for one)
printf -v command '%q rebase %q %q %q.part{} --part {} --parts %q --seconds %q > /dev/null' \
  "$program" "$file" "$certificate" "$round" "$parts" "$seconds"
seq 1 "$parts" | parallel "$@" "$command" || true
good=()
for name in "${names[@]}"; do
  if [ -e "$name" ] && "$program" check "$file" "$name" > /dev/null; then good+=("$name"); fi
done
if [ ${#good[@]} = 0 ]; then
  echo "parallel.sh: all $parts parts are lost, and $certificate is as it was" >&2
  exit 1
fi
"$program" merge "$file" "$certificate" "${good[@]}"
