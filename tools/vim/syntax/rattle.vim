" Code of Rattle: Rust, with the words of contracts.
if exists('b:current_syntax')
    finish
endif
runtime! syntax/rust.vim
syntax keyword rattleClause requires ensures ghost
syntax match rattleSign /[≡≢≤×→λ∷⊎⊥⊤◌ℕ]/
highlight default link rattleClause PreProc
highlight default link rattleSign Operator
let b:current_syntax = 'rattle'
