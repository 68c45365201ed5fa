" Rattle: like Rust, with contracts. What stands in a clause `requires { .. }` or `ensures name { .. }` is antt.
if exists("b:current_syntax")
  finish
endif
syntax include @antt syntax/antt.vim
unlet b:current_syntax
syntax iskeyword 48-57,65-90,95,97-122
setlocal commentstring=//\ %s

syntax keyword rattleKeyword as break const continue crate else enum extern fn for if impl in let loop match mod mut
syntax keyword rattleKeyword pub return self static struct super trait type unsafe use where while
syntax keyword rattleGhost ghost
syntax keyword rattleType bool char str u8 u16 u32 u64 u128 usize i8 i16 i32 i64 i128 isize f32 f64 Self
syntax keyword rattleBool true false
syntax match rattleNumber /\<\%(0x[0-9a-fA-F_]\+\|0o[0-7_]\+\|0b[01_]\+\|\d[0-9_]*\)\%([iu]\%(8\|16\|32\|64\|size\)\)\?\>/
syntax match rattleText /\<b'\%(\\.\|[^\\']\)'/
syntax region rattleText start=/\<b"/ start=/"/ skip=/\\./ end=/"/
syntax match rattleAttribute /#\[[^\]]*\]/
syntax match rattleComment /\/\/.*$/ contains=@Spell
syntax region rattleClause matchgroup=rattleContract start=/\<\%(\%(requires\|ensures\)\*\?\%(\s\+\k\+\)\?\|ghost\s\+\k\+:\)\s*{/ end=/}/ contains=@antt,rattleGroup
syntax region rattleGroup start=/{/ end=/}/ contained transparent contains=@antt,rattleGroup

highlight default link rattleKeyword Keyword
highlight default link rattleGhost PreProc
highlight default link rattleType Type
highlight default link rattleBool Boolean
highlight default link rattleNumber Number
highlight default link rattleText String
highlight default link rattleAttribute PreProc
highlight default link rattleComment Comment
highlight default link rattleContract Special

syntax sync fromstart
let b:current_syntax = "rattle"
