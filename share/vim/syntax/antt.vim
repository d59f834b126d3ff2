" Definitions and proofs (.antt): specs/ and proofs/ of a crate.
if exists('b:current_syntax')
  finish
endif

syntax keyword anttDeclaration abbrev data infix infixl infixr mod module pub record section type unfoldable where
syntax keyword anttImport use as
syntax keyword anttTerm absurd ap at cond do elim else if in let refl rw sym then unfolding with
syntax keyword anttTactic arith auto cc grind omega search simp
syntax keyword anttType Bool List Option Result Type
syntax keyword anttConstant Err None Ok Some false true zero suc
syntax match anttOperator /[→←↔↦λ∷≡≢≤≥×⊎∙¬∀∃⊥⊤◌]/
syntax match anttOperator /++\|&&\|||/
syntax match anttNumber /\<\d\+\>/
syntax match anttHole /?\d*\ze\(\s\|$\)/
syntax match anttSignature /\<\k\+\ze :\s/
syntax region anttString start=/"/ skip=/\\"/ end=/"/ oneline
syntax match anttComment /--.*$/ contains=@Spell

highlight default link anttDeclaration Keyword
highlight default link anttImport Include
highlight default link anttTerm Statement
highlight default link anttTactic PreProc
highlight default link anttType Type
highlight default link anttConstant Constant
highlight default link anttOperator Operator
highlight default link anttNumber Number
highlight default link anttHole Todo
highlight default link anttSignature Function
highlight default link anttString String
highlight default link anttComment Comment

let b:current_syntax = 'antt'
