if exists('b:current_syntax')
  finish
endif
syntax keyword splConditional if then else endif
syntax keyword splRepeat while do done
syntax keyword splStatement skip halt assume
syntax keyword splFail fail
syntax keyword splStructure proc returns var begin end
syntax keyword splType int real
syntax keyword splOperator and or not
syntax keyword splBoolean true false random brandom
syntax match splNumber '\<\d\+\>'
syntax match splSign '[-+*/%<>=!:]'
syntax region splComment start='//' end='$' contains=splTodo
syntax region splComment start='/\*' end='\*/' contains=splTodo,splPoint,splBottom
syntax match splPoint '\[|.*|\]' contained
syntax match splBottom '\<bottom\>' contained
syntax keyword splTodo TODO FIXME contained

highlight default link splConditional Conditional
highlight default link splRepeat Repeat
highlight default link splStatement Statement
highlight default link splFail Exception
highlight default link splStructure Structure
highlight default link splType Type
highlight default link splOperator Operator
highlight default link splBoolean Boolean
highlight default link splNumber Number
highlight default link splSign Operator
highlight default link splComment Comment
highlight default link splPoint Identifier
highlight default link splBottom NonText
highlight default link splTodo Todo
let b:current_syntax = 'spl'
