" antt, the language of specs/ and proofs/: comments, reserved words, tactics, numerals, texts and holes.
if exists("b:current_syntax")
  finish
endif

" A name is any run of characters but spaces and ( ) { } . ; , @ and quotes, so `le-trans`, `◌≤◌` and `x≤y` are one word each.
syntax iskeyword 33,35-39,42,43,45,47-58,60-63,65-122,124,126,128-255
setlocal commentstring=--\ %s

syntax keyword anttDeclare data record module mutual ruleset deriving infix infixl infixr axiom
syntax keyword anttMark pub abbrev unfoldable unfolding
syntax keyword anttModule use mod package open using as
syntax keyword anttWord where let in do elim unfold
syntax match anttWord /[λ∀→↦]/
syntax keyword anttTactic rw rw⁻¹ simp search grw cc omega cap grind hlevel assumption first_of
syntax keyword anttType Type 𝕀 𝔽
syntax match anttNumber /\k\@1<!\%(0x[0-9a-fA-F_]\+\|0o[0-7_]\+\|0b[01_]\+\|\d[0-9_]*\)\k\@!/
syntax region anttText start=/"/ skip=/\\./ end=/"/ oneline
syntax match anttEscaped /«[^»]*»/
syntax match anttHole /\k\@1<!?\k*/
syntax region anttProbe matchgroup=anttHole start=/{!/ end=/!}/ contains=TOP
syntax match anttComment /\k\@1<!--.*$/ contains=@Spell
syntax region anttComment start=/{-/ end=/-}/ contains=anttComment,@Spell

highlight default link anttDeclare Structure
highlight default link anttMark StorageClass
highlight default link anttModule Include
highlight default link anttWord Keyword
highlight default link anttTactic Function
highlight default link anttType Type
highlight default link anttNumber Number
highlight default link anttText String
highlight default link anttEscaped Identifier
highlight default link anttHole Todo
highlight default link anttComment Comment

syntax sync minlines=100
let b:current_syntax = "antt"
