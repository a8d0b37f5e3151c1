" Syntax of a file for pks. Put the folders of editors/vim into ~/.vim.
if exists('b:current_syntax')
  finish
endif

syntax iskeyword @,48-57,45,95,63,61

" A word stands for a section or a form only behind the parenthesis that opens its list.
syntax match pksSection /(\s*\zs\%(pks\|domain\|problem\|world\|types\|objects\|predicates\|functions\|action\|cost\|params\|pre\|effects\|senses\|knows\|init\|goal\|true\|values\)\ze[ \t\r\n()]/
syntax match pksForm /(\s*\zs\%(set\|unset\|clear\|assign\|when\|sense\|sense-value\|sense-all\|kf\|kw\|kv\|kx\|lcw\|k\|if\|not-derived\|at-start\|always\|once\)\ze[ \t\r\n()]/
syntax match pksLogic /(\s*\zs\%(not\|=\)\ze[ \t\r\n()]/
syntax match pksParameter /?[A-Za-z][A-Za-z0-9_-]*/
syntax match pksWildcard /\%(^\|[ \t(]\)\zs_\ze\%([ \t)]\|$\)/
syntax match pksNumber /\%(^\|[ \t(]\)\zs[0-9]\+\ze\%([ \t)]\|$\)/
syntax match pksBadByte /[^A-Za-z0-9_?=() \t\r;-]/
syntax match pksComment /;.*$/ contains=@Spell

highlight default link pksSection Statement
highlight default link pksForm Function
highlight default link pksLogic Operator
highlight default link pksParameter Identifier
highlight default link pksWildcard Special
highlight default link pksNumber Number
highlight default link pksBadByte Error
highlight default link pksComment Comment

let b:current_syntax = 'pks'
