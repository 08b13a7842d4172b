# Completion for fish of the words of pct.

# The threads of a script in their order, joined by commas.
function __pct_threads
    set -l words (commandline -opc)
    sed -n 's/^[[:space:]]*thread[[:space:]]\{1,\}\([A-Za-z0-9_]*\).*/\1/p' $words[3] 2>/dev/null |
        paste -s -d , -
end

# Whether the command is one of these, and its file is there.
function __pct_has_file_of
    set -l words (commandline -opc)
    test (count $words) -ge 3; and contains -- $words[2] $argv
end

# Whether the next word is a file.
function __pct_wants_file
    set -l words (commandline -opc)
    switch (count $words)
        case 2
            not contains -- $words[2] big --explain
        case 3
            contains -- $words[2] replay expose certify
        case '*'
            false
    end
end

# Whether the next word is one that is explained.
function __pct_wants_explained
    set -l words (commandline -opc)
    test (count $words) -eq 2; and test $words[2] = --explain
end

# The words that --explain takes.
set -l explained \
    NotUtf8 LineTooLong TooManyLines BadHeader BadToken BadStatement UnknownName TwiceNamed \
    NumberRange NoEnd StrayEnd NoThread TooMany TooLong BadLine OutOfOrder NoVerdict \
    MoreAfterVerdict passed failed stuck misuse fault cut notowner semfull alreadystarted \
    toomanyreads overflow zerodivisor spin 0 1 2 3 4 5 6 7 8
set -l of_run run races locks find
complete -c pct -f
complete -c pct -n 'test (count (commandline -opc)) -eq 1' -a 'run races locks find expose certify campaign sweep replay big --help --version --explain'
complete -c pct -n __pct_wants_explained -a "$explained"
complete -c pct -n __pct_wants_file -F
complete -c pct -n "__pct_has_file_of $of_run expose" -l order -x -a '(__pct_threads)' -d 'all threads, the highest first'
complete -c pct -n "__pct_has_file_of $of_run" -l points -x -d 'after which steps threads are lowered'
complete -c pct -n "__pct_has_file_of $of_run" -l seed -x -d 'draws the order and the points'
complete -c pct -n '__pct_has_file_of campaign' -l from -x -d 'the first seed'
complete -c pct -n '__pct_has_file_of campaign' -l count -x -d 'how many seeds'
complete -c pct -n "__pct_has_file_of $of_run campaign sweep" -l depth -x -d 'one more than the points'
complete -c pct -n "__pct_has_file_of $of_run campaign sweep expose certify" -l steps -x -d 'from how many steps points are drawn'
complete -c pct -n "__pct_has_file_of $of_run campaign sweep expose certify" -l limit -x -d 'how many steps a run may have'
complete -c pct -n '__pct_has_file_of campaign sweep' -l form -x -a 'text json' -d 'the form of the report'
complete -c pct -n '__pct_has_file_of campaign sweep certify big' -l serve -x -a 'caller threads' -d 'who makes the runs'
