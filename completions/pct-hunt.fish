# Completion for fish of the words of pct-hunt.

# Whether the words before are those of a hunt.
function __pct_hunt_hunts
    set -l words (commandline -opc)
    not contains -- "$words[2]" --page --why
end

# Whether the next word is the first one.
function __pct_hunt_begins
    test (count (commandline -opc)) -eq 1
end

# Whether the next word is the one that --why takes first.
function __pct_hunt_wants_command
    set -l words (commandline -opc)
    test (count $words) -eq 2; and test $words[2] = --why
end

# Whether the next word is --html behind a document.
function __pct_hunt_has_document
    set -l words (commandline -opc)
    test (count $words) -eq 3; and test $words[2] = --page
end

set -l commands run races locks find expose certify campaign sweep replay big --explain
complete -c pct-hunt -n __pct_hunt_begins -l page -r -F -d 'writes the page of a document'
complete -c pct-hunt -n __pct_hunt_begins -l why -d 'why pct refuses words or files'
complete -c pct-hunt -n __pct_hunt_wants_command -f -a "$commands"
complete -c pct-hunt -n __pct_hunt_has_document -l html -r -F -d 'writes the page there'
complete -c pct-hunt -n __pct_hunt_hunts -l depth -x -a '1 2 3 4 5 6 7 8' -d 'the greatest depth'
complete -c pct-hunt -n __pct_hunt_hunts -l seeds -x -d 'seeds of each round'
complete -c pct-hunt -n __pct_hunt_hunts -l from -x -d 'the first seed of each round'
complete -c pct-hunt -n __pct_hunt_hunts -l limit -x -d 'how many steps a run may have'
complete -c pct-hunt -n __pct_hunt_hunts -l time -x -d 'ends the search after so many seconds'
complete -c pct-hunt -n __pct_hunt_hunts -l first -d 'ends it after the first round with a failure'
complete -c pct-hunt -n __pct_hunt_hunts -l certify -x -d 'how many directives are tried'
complete -c pct-hunt -n __pct_hunt_hunts -l jobs -x -d 'parts at once'
complete -c pct-hunt -n __pct_hunt_hunts -l sshlogin -x -d 'hands the parts to these machines'
complete -c pct-hunt -n __pct_hunt_hunts -l json -d 'writes one JSON document'
complete -c pct-hunt -n __pct_hunt_hunts -l html -r -F -d 'writes a page there, too'
complete -c pct-hunt -n __pct_hunt_hunts -l junit -r -F -d 'writes a JUnit report there, too'
complete -c pct-hunt -n __pct_hunt_hunts -l quiet -d 'no lines on how far it is'
complete -c pct-hunt -n __pct_hunt_hunts -l help -d 'writes what there is'
