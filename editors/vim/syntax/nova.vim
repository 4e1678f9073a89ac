" Highlighting of Nova, and of the assembly text that begins with `params`. Written by editors/make.
if exists("b:current_syntax")
  finish
endif
syn case match
syn sync fromstart
syn match novaComment "//.*$" contains=@Spell
syn match novaNumber "\<\(0x\x\+\|\d\+\)"
syn keyword novaKeyword layout exception fun and let if else unpack pack raise try handle overlay _
syn keyword novaType word bool packed unpacked
syn keyword novaMemory sram sdram scratch
syn keyword novaTruth true false
syn match novaSign "\V<<<\|!=\|##\|&&\|<-\|<<\|<=\|==\|>=\|>>\|||\|!\|&\|+\|-\|<\|=\|>\|^\||\|~" contains=NONE
syn region novaAssembly start="\%^params [0-8]$" end="\%$" contains=@novaAssembled
syn cluster novaAssembled contains=novaInstruction,novaOperation,novaAssemblyMemory,novaRegister,novaNumber,novaLabel
syn keyword novaInstruction contained params alu br halt immed read un write
syn keyword novaOperation contained none ADD ALWAYS AND C COPY NC NOT NZ OR ROL SHL SHR SUB XOR Z
syn keyword novaAssemblyMemory contained scratch sdram sram
syn match novaRegister contained "\<\(A\|B\|L\|LD\|S\|SD\)\d\+\>"
syn match novaLabel contained "^\a\w*:\|@\d\+"
hi def link novaComment Comment
hi def link novaNumber Number
hi def link novaKeyword Keyword
hi def link novaType Type
hi def link novaMemory Function
hi def link novaTruth Boolean
hi def link novaSign Operator
hi def link novaInstruction Keyword
hi def link novaOperation Operator
hi def link novaAssemblyMemory Function
hi def link novaRegister Identifier
hi def link novaLabel Label
let b:current_syntax = "nova"
