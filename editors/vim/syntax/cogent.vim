" Vim syntax file for Cogent sources
if exists("b:current_syntax")
  finish
endif

syntax keyword cogentKeyword type let in take all and if then else not complement upcast
syntax keyword cogentBoolean True False
syntax keyword cogentType U8 U16 U32 U64 Bool SysState WordArray
syntax keyword cogentLibrary new free wordarray_create wordarray_free wordarray_length wordarray_get wordarray_put
syntax keyword cogentLibrary wordarray_map wordarray_fold seq32 seq64 seq32_break
syntax match cogentNumber "\<\(0x\x\+\|0o\o\+\|0b[01]\+\|\d\+\)\>"
syntax match cogentConstructor "\<\u[A-Za-z0-9_']*\>"
syntax match cogentOperator "->\|:<\|==\|/=\|<=\|>=\|<<\|>>\|&&\|||\|\.&\.\|\.|\.\|\.^\.\|[-+*/%<>=!|]"
syntax match cogentDefinition "^\(\l\|_\)[A-Za-z0-9_']*"
syntax match cogentLineComment "--.*$"
syntax region cogentBlockComment start="{-" end="-}" contains=cogentBlockComment

highlight default link cogentKeyword Keyword
highlight default link cogentBoolean Boolean
highlight default link cogentType Type
highlight default link cogentLibrary Function
highlight default link cogentNumber Number
highlight default link cogentConstructor Constant
highlight default link cogentOperator Operator
highlight default link cogentDefinition Identifier
highlight default link cogentLineComment Comment
highlight default link cogentBlockComment Comment

let b:current_syntax = "cogent"
