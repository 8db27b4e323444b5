" Rattle: Rust with contracts.
if exists("b:current_syntax")
  finish
endif
runtime! syntax/rust.vim
syntax keyword rattleContract requires ensures ghost unfolding
syntax match rattleName "\v(ensures\s+)@<=\w+(\s*\{)@="
syntax match rattleState "\v\.(old|new|now|contents)>"
syntax match rattleRelation "[≡≤→λ¬∷∙]"
highlight default link rattleContract Keyword
highlight default link rattleName Label
highlight default link rattleState Identifier
highlight default link rattleRelation Operator
let b:current_syntax = "rattle"
