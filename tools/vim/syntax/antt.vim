" Definitions and proofs of Rattle.
if exists("b:current_syntax")
  finish
endif
syntax keyword anttKeyword abbrev absurd as data elim in let mod module mutual pub record unfoldable unfolding use where
syntax keyword anttKeyword if then else
syntax keyword anttTactic ap arith cc grind omega refl rules rw search simp subst sym
syntax match anttType "\<\u[A-Za-z0-9_]*\>"
syntax match anttNumber "\<\d\+\>"
syntax match anttSign "[λ≡→∷×∙ℕ⊎⊥⊤↔¬≤]"
syntax region anttString start=+"+ skip=+\\.+ end=+"+
syntax match anttComment "--.*$" contains=@Spell
highlight default link anttKeyword Keyword
highlight default link anttTactic Function
highlight default link anttType Type
highlight default link anttNumber Number
highlight default link anttSign Operator
highlight default link anttString String
highlight default link anttComment Comment
let b:current_syntax = "antt"
