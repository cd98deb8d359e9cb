#!/bin/sh
#SBATCH --job-name=nets
#SBATCH --cpus-per-task=1
#SBATCH --mem-per-cpu=500M
#SBATCH --time=4:00:00
#SBATCH --output=nets-%A_%a.log
# The parts of a table, as a Slurm array:
#   net_tool table --plan SOURCE FOLDER
#   sbatch --wait --array=1-16 nets.sbatch NET_TOOL FOLDER
#   net_tool table FOLDER
# NET_TOOL is the path of net_tool, given since Slurm runs a copy of this script. Of 16 tasks each takes every 16th piece.
# Any array with equal steps does, as 0-15 or 1-31:2; one with gaps is refused, since its tasks would leave pieces out. If a
# task failed, the same command again does what is missing and nothing else.
case ${1:-} in
-h | --help)
    sed -n '/^# The parts/,/^[^#]/{/^#/s/^# //p}' "$0"
    exit 0
    ;;
esac
set -eu
[ $# -eq 2 ] || { echo "usage: sbatch --array=1-16 nets.sbatch NET_TOOL FOLDER" >&2; exit 2; }
first=${SLURM_ARRAY_TASK_MIN:-} last=${SLURM_ARRAY_TASK_MAX:-} step=${SLURM_ARRAY_TASK_STEP:-} task=${SLURM_ARRAY_TASK_ID:-}
case $first:$last:$step:$task:${SLURM_ARRAY_TASK_COUNT:-} in
*[!0-9:]* | *::* | :* | *:)
    echo "nets.sbatch: this is no task of an array; start it by sbatch --array=1-16" >&2
    exit 2
    ;;
esac
tasks=$(((last - first) / step + 1))
rank=$(((task - first) / step + 1))
if [ "$tasks" -ne "$SLURM_ARRAY_TASK_COUNT" ] || [ $(((task - first) % step)) -ne 0 ]; then
    echo "nets.sbatch: the array from $first to $last has gaps, and its $SLURM_ARRAY_TASK_COUNT tasks would leave pieces" \
        "out; start it as sbatch --array=1-$SLURM_ARRAY_TASK_COUNT" >&2
    exit 2
fi
exec "$1" table "$2" --part "$rank/$tasks" --jobs 1
