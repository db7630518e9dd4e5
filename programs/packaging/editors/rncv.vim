" Vim compiler file: rncv-xml, which judges the XML document in the buffer.
"
"   :compiler rncv
"   :make schema.rnc
"
" The places of what is found are in the quickfix list (:cnext).
if exists("current_compiler")
  finish
endif
let current_compiler = "rncv"

CompilerSet makeprg=rncv-xml\ --color\ never\ $*\ --\ %:S
CompilerSet errorformat=%f:%l:%c:\ %tote:\ %m,%f:%l:%c:\ %m
