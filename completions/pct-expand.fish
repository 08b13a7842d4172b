# Completion for fish of the words of pct-expand.

complete -c pct-expand -l choice -x -d 'the script of that way to choose'
complete -c pct-expand -l lines -d 'before each line the number of the line that it is of'
complete -c pct-expand -l help -d 'writes what there is'
