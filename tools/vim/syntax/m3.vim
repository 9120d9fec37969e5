" M3 tables: the tokens of docs/LANGUAGE.md.
" To use it, add this folder's parent to 'runtimepath'.
if exists("b:current_syntax")
  finish
endif

syntax case match
syntax iskeyword @,48-57,_

syntax keyword m3Declaration channel boundary table column virtual zero
syntax keyword m3Side push pull
syntax keyword m3Form linear shl shr rol pack project
syntax keyword m3Word if x rows
syntax match m3Type ":\s*\zsb\%(1\|2\|4\|8\|16\|32\|64\|128\)\>"
" The numbers: digits, or 0x and digits of either case. What follows begins a token of its own.
syntax match m3Number "\<\d\+"
syntax match m3Number "\<0x\x\+"
syntax match m3Mark "[:;,(){}=+*]"
syntax match m3Comment "#.*$"

highlight default link m3Declaration Statement
highlight default link m3Side Statement
highlight default link m3Form Function
highlight default link m3Word Keyword
highlight default link m3Type Type
highlight default link m3Number Number
highlight default link m3Mark Delimiter
highlight default link m3Comment Comment

let b:current_syntax = "m3"
