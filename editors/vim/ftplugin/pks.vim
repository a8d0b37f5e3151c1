" Lists are indented as in Lisp; `:make` shows the place of a refusal.
if exists('b:did_ftplugin')
  finish
endif
let b:did_ftplugin = 1

setlocal lisp commentstring=;\ %s comments=:; iskeyword=@,48-57,-,_,?,=
setlocal lispwords=domain,problem,world,action
setlocal shiftwidth=2 expandtab
let &l:makeprg = executable('pks-why') ? 'pks-why %:S' : 'tools/why %:S'
setlocal errorformat=%f:%l:%c:\ %m
let b:undo_ftplugin = 'setlocal lisp< commentstring< comments< iskeyword< lispwords< shiftwidth< expandtab< makeprg< errorformat<'
