" made by tools/pages
if exists("b:current_syntax")
  finish
endif

syntax case match
syntax match sketchFrame /\v(^\s*)@<=(sketch|end)>/
syntax match sketchElement /\v(^\s*)@<=(point|line|circle)>/
syntax match sketchConstraint /\v(^\s*)@<=(distance|on|tangent|outside|inside|angle|block)>/
syntax match sketchEdit /\v(^\s*)@<=(drop|set|erase|undo|check|plan|solve|write)>/
syntax match sketchTail /\v(^\s*)@<=(flip|offer|step|tolerance)>/
syntax match sketchRow /\v(^\s*step\s.*)@<=<(joins|at|keeps|turn|advance|none)>/
syntax match sketchNumber /\v\s@<=[-+]?[0-9]+(\.[0-9]+)?(\/[0-9]+)?(\s|$)@=/
syntax match sketchComment /\v#.*$/
highlight default link sketchFrame PreProc
highlight default link sketchElement Type
highlight default link sketchConstraint Statement
highlight default link sketchEdit Statement
highlight default link sketchTail Statement
highlight default link sketchRow Special
highlight default link sketchNumber Number
highlight default link sketchComment Comment

let b:current_syntax = "sketch"
