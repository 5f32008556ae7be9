" Vim syntax of the text of a plan.
if exists('b:current_syntax')
    finish
endif
syntax case match
syntax match rawgridComment /#.*$/
syntax match rawgridNumber /\%([ \t,]\)\@<=\%(0x\x\{1,8}\|-\?\d\+\)\ze\%([ \t,#]\|$\)/
syntax match rawgridUnknown /\%(^\s*\)\@<=[^ \t,#]\+/
syntax keyword rawgridLine grid send
highlight default link rawgridComment Comment
highlight default link rawgridNumber Number
highlight default link rawgridLine Keyword
highlight default link rawgridUnknown Error
let b:current_syntax = 'rawgrid-plan'
