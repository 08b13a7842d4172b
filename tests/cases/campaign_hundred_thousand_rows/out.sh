# A row for each of the seeds: the only run has no step.
printf '%s\n' 'campaign 1' 'threads 1' 'steps 1' 'depth 1' 'limit 10000'
seq -f '%.0f 0 passed' 1 100000
echo 'groups 0'
