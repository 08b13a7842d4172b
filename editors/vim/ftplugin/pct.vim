" Vim file type plugin
" Language: scripts of pct, versions 1 to 3

if exists('b:did_ftplugin')
  finish
endif
let b:did_ftplugin = 1

setlocal comments=:# commentstring=#\ %s
compiler pct

let b:undo_ftplugin = 'setlocal comments< commentstring< makeprg< errorformat<'
