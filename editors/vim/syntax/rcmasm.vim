" Vim syntax file of the text form of region-checked modules (docs/ASSEMBLY.md).
if exists('b:current_syntax')
    finish
endif

syntax keyword rcmDeclaration fn struct type region reg raw file
syntax keyword rcmControl if goto return
syntax keyword rcmOperation new free check address field signed unsigned nearest form output in
syntax keyword rcmType i8 i16 i32
syntax match rcmNumber '\<\(0[xX][0-9A-Fa-f_]\+\|[0-9][0-9_]*\)\>'
syntax match rcmCharacter "'\([ -~]\|\\[n0]\|\\x[0-9A-Fa-f]\{2}\)'"
syntax match rcmOperator '->\|==\|!=\|<=\|>=\|<<\|>>\|[-+*&|^/%<>=]'
syntax match rcmLabel '^\s*[A-Za-z_][A-Za-z0-9_]*:\ze\s*\($\|#\|\(goto\|if\|return\|output\|free\|raw\)\>\|\*\?\s*[A-Za-z_][A-Za-z0-9_]*\s*=\)'
syntax match rcmComment '#.*$' contains=rcmExpectation
syntax match rcmExpectation '#:.*$' contained

highlight default link rcmDeclaration Keyword
highlight default link rcmControl Statement
highlight default link rcmOperation Operator
highlight default link rcmType Type
highlight default link rcmNumber Number
highlight default link rcmCharacter Character
highlight default link rcmOperator Operator
highlight default link rcmLabel Label
highlight default link rcmComment Comment
highlight default link rcmExpectation SpecialComment

setlocal commentstring=#\ %s
let b:current_syntax = 'rcmasm'
