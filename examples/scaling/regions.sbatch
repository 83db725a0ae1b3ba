#!/bin/sh
# The same over the machines of a Slurm cluster: an array of jobs, one for each region, in a folder
# that all of them see. When the array is done, another job merges its files:
#
#     export SCALING=examples/scaling OCTOMAP=octomap        # both as absolute paths
#     job=$(sbatch --parsable --array=1-16 "$SCALING/regions.sbatch" 0.05 16 -20 20 drive.txt)
#     sbatch --dependency=afterok:"$job" --kill-on-invalid-dep=yes --cpus-per-task=4 \
#         --wrap "$SCALING/merge_parts.sh 16 >map.bt"
#
# Where a region fails, so does the array, and the job that merges is taken out of the queue. A job
# is run from a copy of its script, which is why SCALING has to be known.
#
#SBATCH --job-name=octomap
#SBATCH --ntasks=1
#SBATCH --mem=4G

: "${SCALING:?is not set: export the folder examples/scaling in it}"
: "${OCTOMAP:?is not set: export the path of the program octomap in it}"
res=$1 regions=$2 low=$3 high=$4 script=$5
shift 5
"$SCALING/build_region.sh" "$res" "$regions" "$low" "$high" \
    "$SLURM_ARRAY_TASK_ID" "$script" "$@" >"part.$SLURM_ARRAY_TASK_ID"
[ $? -le 1 ]
