#!/bin/sh
# slurm.sh TABLE VERB [WORD..]: a verb of pinepolo for each store of a table, a task of a Slurm array each. In a folder that
# all nodes reach:
#
#     examples/partitions/stores /srv/table > stores.txt; mkdir -p logs
#     sbatch --wait --array=1-$(wc -l < stores.txt) --mem=2G examples/partitions/slurm.sh /srv/table check --json
#
# A task takes what `dump` takes of one store. Tasks whose store an append has made anew in the meantime say so, and fail.
#SBATCH --output=logs/%a.out
table=$1
shift
exec pinepolo-data each --store "$(sed -n "${SLURM_ARRAY_TASK_ID}p" stores.txt)" "$table" -- "$@"
