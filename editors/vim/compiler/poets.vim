" Session texts of poets: `:compiler poets`, and then `:make` runs the text and goes to its mistake. Of what
" examples/expect prints it goes to each expected reply that did not come.
if exists("current_compiler")
  finish
endif
let current_compiler = "poets"

let s:word = search('^\s*journal\s*;;', 'nw') ? 'replay' : search('^\s*clerk\s*;;', 'nw') ? 'run' : 'check'
execute 'CompilerSet makeprg=poets\ ' . s:word . '\ <\ %:S'
" A text that is refused: the line of standard output, and then the place on standard error.
CompilerSet errorformat=%Erefused\ %m,%Zline\ %l\\,\ column\ %c,%f:%l:\ %m,%-G%.%#
