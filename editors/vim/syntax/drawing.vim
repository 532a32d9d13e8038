" made by tools/pages
if exists("b:current_syntax")
  finish
endif

syntax case match
syntax match drawingFrame /\v(^\s*)@<=(drawing)>/
syntax match drawingShape /\v(^\s*((construction|outer)\s+)*)@<=(point|segment|circle|arc|polyline|rectangle)>/
syntax match drawingFlag /\v(^\s*((construction|outer)\s+)*)@<=(construction|outer)>/
syntax match drawingValue /\v(^\s*)@<=(value)>/
syntax match drawingTolerancing /\v(^\s*)@<=(tolerances|check)>/
syntax match drawingConstraint /\v((^|:)\s*)@<=(coincident|on|horizontal|vertical|parallel|perpendicular|collinear|angle|length|distance|x|y|radius|diameter|tangent|equal|concentric|symmetric|midpoint|fixed)>/
syntax match drawingDatum /\v(\s)@<=(Origin|XAxis|YAxis)>/
syntax match drawingNumber /\v\s@<=[-+]?[0-9]+(\.[0-9]+)?(\/[0-9]+)?(mm|in|deg|°)?(\s|$)@=/
syntax match drawingComment /\v#.*$/
highlight default link drawingFrame PreProc
highlight default link drawingShape Type
highlight default link drawingFlag StorageClass
highlight default link drawingValue Define
highlight default link drawingTolerancing Define
highlight default link drawingConstraint Statement
highlight default link drawingDatum Constant
highlight default link drawingNumber Number
highlight default link drawingComment Comment

let b:current_syntax = "drawing"
