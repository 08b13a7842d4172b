" Vim syntax file
" Language: scripts of pct, versions 1 to 3

if exists('b:current_syntax')
  finish
endif

syntax keyword pctHeader script
syntax keyword pctDeclaration var mutex cond sem barrier rwlock nextgroup=pctName skipwhite
syntax keyword pctThread thread nextgroup=pctName skipwhite
syntax keyword pctBlock if else while end
syntax keyword pctStatement read write add cas set yield
syntax keyword pctStatement lock trylock unlock wait signal broadcast
syntax keyword pctStatement down trydown up arrive
syntax keyword pctStatement rdlock wrlock tryrdlock trywrlock rwunlock
syntax keyword pctStatement start join
syntax keyword pctAssert assert

syntax match pctName /\<\h\w*\>/ contained
syntax match pctRegister /\<r\%(1[0-5]\|\d\)\>/
syntax match pctNumber /\<\d\+\>/
syntax match pctOperator /||\|&&\|[=!<>]=\|[-<>+*\/%!=]/
syntax match pctComment /#.*/ contains=pctTodo,@Spell
syntax keyword pctTodo TODO FIXME contained

highlight default link pctHeader PreProc
highlight default link pctDeclaration Type
highlight default link pctThread Structure
highlight default link pctBlock Conditional
highlight default link pctStatement Statement
highlight default link pctAssert Exception
highlight default link pctName Identifier
highlight default link pctRegister Special
highlight default link pctNumber Number
highlight default link pctOperator Operator
highlight default link pctComment Comment
highlight default link pctTodo Todo

let b:current_syntax = 'pct'
