" :compiler cogent, then :make checks the file, and :cnext goes to FILE:line:column
if exists("current_compiler")
  finish
endif
let current_compiler = "cogent"
CompilerSet makeprg=cogent\ check\ %
CompilerSet errorformat=%f:%l:%c:\ %m,%f:\ %m,limit:\ %m
