" Vim syntax of the text of a flow or a stream.
if exists('b:current_syntax')
    finish
endif
syntax case match
syntax match rawgridComment /#.*$/
syntax match rawgridName /\%([ \t,]\)\@<=\h\w*\ze\%([ \t,#]\|$\)/
syntax match rawgridNumber /\%([ \t,]\)\@<=\%(0x\x\{1,8}\|-\?\d\+\)\ze\%([ \t,#]\|$\)/
" the side of a place stands behind its row; elsewhere N is a name
syntax match rawgridSide /\%([ \t,]\d\+[ \t,]\+\)\@<=[NESW]\ze\%([ \t,#]\|$\)/
" the third word of a `def` line is an operation
syntax match rawgridUnknown /\%(^\s*def[ \t,]\+\h\w*[ \t,]\+\)\@<=[^ \t,#]\+/
syntax match rawgridOperation /\%(^\s*def[ \t,]\+\h\w*[ \t,]\+\)\@<=\%(const\|pre\|add\|sub\|mul\|mulhi\|mulhu\|and\|or\|xor\|nor\|slt\|sltu\|sll\|srl\|sra\)\ze[ \t,]/
syntax match rawgridUnknown /\%(^\s*\)\@<=[^ \t,#]\+/
syntax match rawgridLine /\%(^\s*\)\@<=\%(grid\|rows\|input\|def\|out\|feed\)\ze[ \t,]/
highlight default link rawgridComment Comment
highlight default link rawgridName Identifier
highlight default link rawgridNumber Number
highlight default link rawgridSide Constant
highlight default link rawgridOperation Statement
highlight default link rawgridLine Keyword
highlight default link rawgridUnknown Error
let b:current_syntax = 'rawgrid-flow'
