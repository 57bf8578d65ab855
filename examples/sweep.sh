#!/usr/bin/env bash
# Carries the desktop out with each budget of its recorder, from 1 to 20 ticks of every 40, and tables for how many
# ticks each thread ran, for how many the recorder was ready, and who was refused. It needs GNU parallel. See
# docs/SWEEPS.md.
#
# At the top of the repository:
#   examples/sweep.sh FOLDER              scenarios, reports and the log come into that folder
#   HOSTS=FILE examples/sweep.sh FOLDER   on the machines of a list of hosts; the folder is named from the top
#   HLS=PROGRAM ..                        with another program than ./hls
set -eu
folder=${1:?name a folder}
hls=${HLS:-./hls}
mkdir -p "$folder"

# The desktop with one request of the recorder, and one of the editor.
vary() {
  sed -e '/recorder on real res 20 40/d' -e "s/res 15 40 hard as RESBH 15 40/res $1 40 hard as RESBH $1 40/" \
    -e '/end editor/,/PSBE 3.8 16/d' examples/desktop.scenario
}
budgets=$(seq 20)
for budget in $budgets; do vary "$budget" >"$folder/$budget.scenario"; done

# (first alone: so the program is proved and built once)
"$hls" gen 0 >/dev/null
options=(--joblog "$folder/log" --resume)
[ -t 2 ] && options+=(--bar)
if [ -n "${HOSTS:-}" ]; then
  options+=(--sshloginfile "$HOSTS" --workdir . --transferfile '{}' --return '{.}.report' --cleanup)
fi
for budget in $budgets; do echo "$folder/$budget.scenario"; done |
  parallel "${options[@]}" "$hls run < {} > {.}.report" || echo "some runs failed: see $folder/log" >&2

awk 'NR > 1 { runs[$7]++ } END { for (status in runs) print runs[status], "runs with status", status }' "$folder/log"

# A row: the budget, what the report's accounts tell, and who was refused with which number.
threads="player editor compiler recorder mail index"
row() {
  awk -v budget="$1" -v threads="$threads" '
    /^at / { name = $4 }
    /^= refused/ { refused = refused (refused ? "," : "") name ":" $3 }
    / ready [0-9]+ served / { ready[$1] += $(NF - 2); served[$1] += $NF }
    /^idle / { idle = $2 }
    function told(ticks) { return ticks == "" ? "-" : ticks }
    END {
      printf "%-6s", budget
      for (n = split(threads, list, " "); ++i <= n;) printf "%9s", told(served[list[i]])
      printf "%9s%9s  %s\n", told(ready["recorder"]), idle, refused ? refused : "none"
    }' "$2"
}
printf '%-6s' budget
printf '%9s' $threads ready idle
printf '  %s\n' refused
for budget in $budgets; do row "$budget" "$folder/$budget.report"; done
