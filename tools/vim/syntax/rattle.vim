" Rattle, which is Rust with contracts.
if exists("b:current_syntax")
  finish
endif
runtime! syntax/rust.vim
unlet! b:current_syntax
syntax include @antt syntax/antt.vim
syntax keyword rattleGhost ghost
syntax keyword rattleContract ensures requires nextgroup=rattleName,rattleClause skipwhite skipempty
syntax match rattleName "\<\w\+\>" contained nextgroup=rattleClause skipwhite skipempty
syntax region rattleClause matchgroup=Delimiter start="{" end="}" contained contains=@antt,rattleRecord
syntax region rattleRecord start="{" end="}" contained contains=@antt,rattleRecord
highlight default link rattleGhost Keyword
highlight default link rattleContract Keyword
highlight default link rattleName Label
let b:current_syntax = "rattle"
