" With `:compiler strc` Vim's `:make` checks a program, and goes to what is wrong.
if exists("current_compiler")
  finish
endif
let current_compiler = "strc"
CompilerSet makeprg=strc\ check\ --lint\ %:S
CompilerSet errorformat=%f:%l:%c:\ %tarning:\ %m,%f:%l:%c:\ %m,%-G%.%#
