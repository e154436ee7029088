" Models (.model) and texts of equations (.pbes) of pbsolve. Made by tools/editors/syntax.py.
if exists("b:current_syntax")
  finish
endif
syntax iskeyword @,48-57,_,39
syntax keyword pbsolveStatement sort struct pbes model state define step property init
syntax keyword pbsolveKeyword mu nu forall exists val skip
syntax keyword pbsolveSpecial no_deadlock always possibly inevitably until leads_to fair
syntax keyword pbsolveType Bool Pos Nat Int
syntax keyword pbsolveBoolean true false
syntax keyword pbsolveOperator div mod
syntax keyword pbsolveFunction if max min abs succ pred Pos2Nat Pos2Int Nat2Int
syntax keyword pbsolveError cons map var eqn glob lambda whr end in act proc
syntax match pbsolveNumber /\<\d\+\>/
syntax match pbsolveOperator /:=\|->\|=>\|==\|!=\|<=\|>=\|&&\|||\|[-+*<>!]/
syntax match pbsolveComment /%.*$/
syntax match pbsolvePreProc /^%range\s.*$/
highlight default link pbsolveStatement Statement
highlight default link pbsolveKeyword Keyword
highlight default link pbsolveSpecial Special
highlight default link pbsolveType Type
highlight default link pbsolveBoolean Boolean
highlight default link pbsolveOperator Operator
highlight default link pbsolveFunction Function
highlight default link pbsolveError Error
highlight default link pbsolveNumber Number
highlight default link pbsolveComment Comment
highlight default link pbsolvePreProc PreProc
let b:current_syntax = "pbsolve"
