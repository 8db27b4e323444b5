" Definitions and lemmas that Rattle's contracts stand on.
if exists("b:current_syntax")
  finish
endif
syntax keyword anttKeyword use pub abbrev unfoldable unfolding record module where let in if then else as
syntax keyword anttProof refl ap subst elim rw sym omega arith absurd auto
syntax keyword anttType Type Bool List Option Result
syntax match anttType "ℕ"
syntax match anttOperator "[≡≤→λ∷∙◌¬×∧∨]\|++\|==\|&&\|||"
syntax match anttNumber "\v<\d+>"
syntax region anttString start=+"+ skip=+\\"+ end=+"+ oneline
syntax match anttComment "--\s.*$" contains=@Spell
highlight default link anttKeyword Keyword
highlight default link anttProof Function
highlight default link anttType Type
highlight default link anttOperator Operator
highlight default link anttNumber Number
highlight default link anttString String
highlight default link anttComment Comment
let b:current_syntax = "antt"
