" Session texts of poets. Copy `syntax`, `ftdetect` and `compiler` into ~/.vim or ~/.config/nvim.
if exists("b:current_syntax")
  finish
endif

syntax keyword poetsStatement agents kinds template report clerk journal
syntax keyword poetsCommand register transmit void show tally portfolio over watch read
syntax keyword poetsReserved total
syntax keyword poetsFold fold with in by if then else
syntax keyword poetsContract Success Failure
syntax keyword poetsOperator and or not amount kind res
syntax keyword poetsConstant true false undefined
syntax keyword poetsType Int Bool Agent Kind Resource Day
" `end` closes an `if`; before a name and `;;` it is the command.
syntax match poetsFold "\<end\>"
syntax match poetsCommand "\<end\ze\_s\+\h\w*\_s*;;"
syntax match poetsNumber "\<\d\+"
syntax match poetsDay "@\d\{4}-\d\d-\d\d"
syntax match poetsEnd ";;"
syntax match poetsComment "#.*$"

highlight default link poetsStatement Keyword
highlight default link poetsCommand Statement
highlight default link poetsReserved Error
highlight default link poetsFold Conditional
highlight default link poetsContract Special
highlight default link poetsOperator Operator
highlight default link poetsConstant Constant
highlight default link poetsType Type
highlight default link poetsNumber Number
highlight default link poetsDay Number
highlight default link poetsEnd Delimiter
highlight default link poetsComment Comment

setlocal commentstring=#\ %s
let b:current_syntax = "poets"
