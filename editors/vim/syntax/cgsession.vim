" Vim syntax file
" Language: sessions of cg, a calculator for short partizan games (docs/LANGUAGE.md)

if exists("b:current_syntax")
  finish
endif

" Where several of these match at a place, Vim takes the last.
syntax case match
syntax match cgDelimiter /[{}()|,;]/
syntax match cgOperator /:=\|[-+.]/
syntax match cgNumber /[0-9]\+\(\/[0-9]\+\)\?/
syntax match cgArrow /\^\{2,}\|\^[0-9]*\|v\{2,}\|v[0-9]*/
syntax match cgNimber /\*[0-9]*/
syntax match cgName /[a-uw-z][a-z0-9]\{,15}/
syntax match cgGame /\(Amazons\|Clobber\|Col\|Domineering\|Hackenbush\|Octal\|Snort\|Strip\|Toads\)\ze[ \t\r]*(/
syntax match cgGame /\(Tiny\|Miny\)\ze(/
syntax match cgText /"[^"]*"/
syntax match cgDefined /^[ \t\r]*\zs[a-uw-z][a-z0-9]\{,15}\ze[ \t\r]*:=/
syntax match cgQuestion /^[ \t\r]*\zs\(value\|outcome\|stops\|mean\|temp\|thermo\|compare\|proof\|check\)\ze[ \t\r]/
syntax match cgFormat /\%1l^[ \t\r]*\zscg 2\ze[ \t\r]*$/
syntax match cgComment /^[ \t\r]*\zs#.*$/

highlight default link cgDelimiter Delimiter
highlight default link cgOperator Operator
highlight default link cgNumber Number
highlight default link cgArrow Constant
highlight default link cgNimber Constant
highlight default link cgName Identifier
highlight default link cgGame Type
highlight default link cgText String
highlight default link cgDefined Function
highlight default link cgQuestion Statement
highlight default link cgFormat PreProc
highlight default link cgComment Comment

let b:current_syntax = "cgsession"
