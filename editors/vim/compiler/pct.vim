" Vim compiler file
" Compiler: pct. ':make --from 1 --count 1000 --depth 2' runs a campaign of the script.

if exists('current_compiler')
  finish
endif
let current_compiler = 'pct'
let s:kept = &cpoptions
set cpoptions&vim

CompilerSet makeprg=pct\ campaign\ %:S
" The line of a faulty script; the last line of a trace; and the lines of a campaign's groups. No
" other line is kept.
CompilerSet errorformat=script:\ line\ %l\ %m,
      \verdict\ %m\ %l\ %*[a-z],
      \verdict\ %m\ %l,
      \%*[0-9]\ %*[0-9]\ %*[0-9]\ %m\ %l\ %*[a-z],
      \%*[0-9]\ %*[0-9]\ %*[0-9]\ %m\ %l,
      \%-G%.%#

let &cpoptions = s:kept
unlet s:kept
