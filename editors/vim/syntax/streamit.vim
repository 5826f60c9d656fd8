" Vim syntax of StreamIt programs, as strc reads them.
if exists("b:current_syntax")
  finish
endif

syntax keyword streamitType int boolean void
syntax keyword streamitConstant true false
syntax keyword streamitStructure filter pipeline splitjoin feedbackloop Identity FileReader FileWriter
syntax keyword streamitError break continue do float complex bit struct portal
syntax keyword streamitKeyword init prework work push pop peek add split join duplicate roundrobin body loop enqueue if else while for print println return
syntax match streamitNumber /\<\d\+\>/
syntax region streamitString start=/"/ end=/"/ oneline
syntax match streamitComment +//.*$+
syntax region streamitComment start=+/\*+ end=+\*/+

highlight default link streamitType Type
highlight default link streamitConstant Constant
highlight default link streamitStructure Structure
highlight default link streamitError Error
highlight default link streamitKeyword Keyword
highlight default link streamitNumber Number
highlight default link streamitString String
highlight default link streamitComment Comment

let b:current_syntax = "streamit"
