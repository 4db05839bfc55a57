" Outlines and templates of og.
if exists("b:current_syntax")
  finish
endif
syntax keyword ogStatement cobegin coend await begin end skip
syntax keyword ogConditional if then else
syntax keyword ogRepeat while do for
syntax keyword ogDeclaration var aux const let template process
syntax keyword ogOperator not and or in where all some sum mod
syntax keyword ogBoolean true false
syntax match ogNumber "\<\d\+\>"
syntax match ogParallel "//"
syntax match ogComment "#.*$" contains=@Spell
syntax region ogNote start="{" end="}" contains=ogComment,ogOperator,ogBoolean,ogNumber
highlight default link ogStatement Statement
highlight default link ogConditional Conditional
highlight default link ogRepeat Repeat
highlight default link ogDeclaration Type
highlight default link ogOperator Operator
highlight default link ogBoolean Boolean
highlight default link ogNumber Number
highlight default link ogParallel Statement
highlight default link ogComment Comment
highlight default link ogNote PreProc
let b:current_syntax = "og"
