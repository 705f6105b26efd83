" Vim syntax file for the module language of fing: one item for each sort of token in docs/language/tokens.md.
if exists("b:current_syntax")
  finish
endif

syntax case match
" Of two matches at one place the later one wins.
syntax match fingBadByte "[^[:blank:]\r]"
syntax match fingName "[A-Za-z_][A-Za-z0-9_']*"
syntax match fingBinding "\%(val\|type\|data\|module\|signature\|include\)[A-Za-z0-9_']\@!"
syntax match fingBlock "\%(struct\|sig\|end\|let\|in\)[A-Za-z0-9_']\@!"
syntax match fingKeyword "\%(fun\|gen\|fix\|pack\|unpack\|from\|where\|inj\|roll\|unroll\)[A-Za-z0-9_']\@!"
syntax match fingConditional "\%(if\|then\|else\|case\|of\)[A-Za-z0-9_']\@!"
syntax match fingBoolean "\%(true\|false\)[A-Za-z0-9_']\@!"
syntax match fingType "\%(Int\|Bool\|Text\|Type\)[A-Za-z0-9_']\@!"
syntax match fingMark "[][(){}.,]"
syntax match fingOperator ":>\|=>\|->\|==\|[-+*/%<=#:]"
syntax match fingNumber "\~\=[0-9]\+"
syntax match fingText +"\%([ !#-[\]-~]\|\\["\\n]\)*"+ contains=fingEscape
syntax match fingEscape contained "\\["\\n]"
syntax match fingComment "--.*" contains=@Spell

highlight default link fingBinding Keyword
highlight default link fingBlock Structure
highlight default link fingKeyword Keyword
highlight default link fingConditional Conditional
highlight default link fingBoolean Boolean
highlight default link fingType Type
highlight default link fingBadByte Error
highlight default link fingOperator Operator
highlight default link fingNumber Number
highlight default link fingText String
highlight default link fingEscape SpecialChar
highlight default link fingComment Comment

let b:current_syntax = "fing"
