" Vim syntax of the text of a set: its lines, tile text and switch text in their sections, and what may stand behind
" it: a line `script`, `history`, `live` or `claim`, and the lines of these. A first word that no line has is an error.
if exists('b:current_syntax')
    finish
endif
syntax case match
" (so a label is one word with its colon, and no keyword)
syntax iskeyword @,48-57,_,.,:

syntax match rawgridComment /#.*$/
syntax match rawgridNumber /\%(^\|[ \t,(]\)\@<=\%(0x\x\{1,8}\|-\?\d\+\)\ze\%([ \t,(#]\|$\)/
syntax match rawgridSide /\%([ \t,]\)\@<=[NESW]\ze\%([ \t,#]\|$\)/

" Lines of the set
syntax match rawgridUnknown /\%(^\s*\)\@<=[^ \t,#]\+/
syntax keyword rawgridLine grid limit depth source sink feed data misses show

" Tile text
syntax region rawgridTile matchgroup=rawgridSection start=/^\s*tile\>/ end=/^\s*end\ze\s*\%(#.*\)\?$/
    \ contains=rawgridComment,rawgridNumber,rawgridLabel,rawgridTarget,rawgridTileName,rawgridUnknownName,
    \rawgridRegister,rawgridNetwork
syntax match rawgridTarget contained /\%([ \t,]\)\@<=\h\w*\ze\%([ \t,#]\|$\)/
syntax match rawgridUnknownName contained /\%(^\s*\%(\h\w*:\)\?\s*\)\@<=[^ \t,#:>]\+\ze\%([ \t,#]\|$\)/
syntax match rawgridLabel contained /\%(^\s*\)\@<=\h\w*:/
syntax match rawgridRegister contained /\$\d\+/
syntax match rawgridNetwork contained /\$2[45]\>/
syntax keyword rawgridTileName contained sll srl sra sllv srlv srav jr jalr addu subu and or xor nor slt sltu
syntax keyword rawgridTileName contained mul mulhi mulhu clz popc halt bltz bgez beq bne blez bgtz
syntax keyword rawgridTileName contained addiu slti sltiu andi ori xori lui lb lh lw lbu lhu sb sh sw j jal
syntax keyword rawgridTileName contained nop move b li .word

" Switch text
syntax region rawgridSwitch matchgroup=rawgridSection start=/^\s*switch\>/ end=/^\s*end\ze\s*\%(#.*\)\?$/
    \ contains=rawgridComment,rawgridNumber,rawgridLabel,rawgridTarget,rawgridSwitchName,rawgridUnknownName,
    \rawgridSwitchRegister,rawgridRoute,rawgridInput
syntax match rawgridSwitchRegister contained /\%([ \t,]\)\@<=r[0-3]\ze\%([ \t,#]\|$\)/
syntax match rawgridInput contained /\%([ \t,]\)\@<=[12]:[NESWP]\ze\%([ \t,#]\|$\)/
syntax match rawgridRoute contained /\%(^\|[ \t,]\)\@<=[12]:\%([NESWP]\|r[0-3]\)>[NESWP]\ze\%([ \t,#]\|$\)/
syntax keyword rawgridSwitchName contained nop j beqz bnez bnezd move halt

" What stands behind a set
syntax region rawgridBehind matchgroup=rawgridSection start=/^\s*\%(script\|history\|live\)\ze\s*\%(#.*\)\?$/ end=/\%$/
    \ contains=rawgridComment,rawgridNumber,rawgridSide,rawgridCommand,rawgridUnknownCommand
syntax match rawgridUnknownCommand contained /\%(^\s*\)\@<=[^ \t,#0-9][^ \t,#]*/
syntax keyword rawgridCommand contained at back forth until last rest where all regs mem code wires passed waits echo put

" Behind a line `claim` stand the lines of a flow or of a stream; the third word of a `def` line is an operation
syntax region rawgridClaim matchgroup=rawgridSection start=/^\s*claim\ze\s*\%(#.*\)\?$/ end=/\%$/
    \ contains=rawgridComment,rawgridNumber,rawgridTarget,rawgridPlaceSide,rawgridClaimLine,rawgridUnknownCommand,
    \rawgridOperation,rawgridUnknownOperation
syntax match rawgridPlaceSide contained /\%([ \t,]\d\+[ \t,]\+\)\@<=[NESW]\ze\%([ \t,#]\|$\)/
syntax match rawgridClaimLine contained /\%(^\s*\)\@<=\%(grid\|rows\|input\|def\|out\|mem\|feed\)\ze[ \t,]/
syntax match rawgridUnknownOperation contained /\%(^\s*def[ \t,]\+\h\w*[ \t,]\+\)\@<=[^ \t,#]\+/
syntax match rawgridOperation contained /\%(^\s*def[ \t,]\+\h\w*[ \t,]\+\)\@<=\%(const\|pre\|add\|sub\|mul\|mulhi\|mulhu\|and\|or\|xor\|nor\|slt\|sltu\|sll\|srl\|sra\)\ze[ \t,]/

highlight default link rawgridComment Comment
highlight default link rawgridNumber Number
highlight default link rawgridSide Constant
highlight default link rawgridPlaceSide Constant
highlight default link rawgridLine Keyword
highlight default link rawgridSection Structure
highlight default link rawgridLabel Label
highlight default link rawgridTarget Identifier
highlight default link rawgridTileName Statement
highlight default link rawgridSwitchName Statement
highlight default link rawgridRegister Identifier
highlight default link rawgridNetwork Special
highlight default link rawgridSwitchRegister Identifier
highlight default link rawgridInput Type
highlight default link rawgridRoute Type
highlight default link rawgridCommand Statement
highlight default link rawgridClaimLine Keyword
highlight default link rawgridOperation Statement
highlight default link rawgridUnknownOperation Error
highlight default link rawgridUnknown Error
highlight default link rawgridUnknownName Error
highlight default link rawgridUnknownCommand Error

let b:current_syntax = 'rawgrid-set'
