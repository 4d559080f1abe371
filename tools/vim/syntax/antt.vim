" Definitions and proofs of Rattle.
if exists('b:current_syntax')
    finish
endif
syntax keyword anttKeyword use as module where data record abbrev unfoldable pub do let in if then else with
syntax keyword anttConstant true false refl
syntax match anttNumber /\<\d\+\>/
syntax match anttType /\<\u\w*/
syntax match anttDefined /\%(^\s*\%(\%(abbrev\|pub\|unfoldable\|record\|data\) \)*\)\@<=\l\w*\ze :/
syntax match anttSign /[≡≢≤×→←λ∷⊎⊥⊤◌ℕ]/
syntax match anttComment /--.*$/
highlight default link anttKeyword Keyword
highlight default link anttConstant Constant
highlight default link anttNumber Number
highlight default link anttType Type
highlight default link anttDefined Function
highlight default link anttSign Operator
highlight default link anttComment Comment
let b:current_syntax = 'antt'
