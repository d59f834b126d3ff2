" Rattle (.rt): Rust with contracts. A clause's braces hold a term of antt.
if exists('b:current_syntax')
  finish
endif

runtime! syntax/rust.vim
unlet! b:current_syntax
syntax include @antt syntax/antt.vim

syntax keyword rattleClause ghost requires ensures invariant decreases contained
syntax match rattleUse /^\s*ghost use .*$/ contains=rattleClause,rattlePath
syntax match rattlePath /Rattle\(\.\k\+\)\+/ contained
syntax region rattleTerm matchgroup=rattleClause keepend extend
    \ start=/\<\%(requires\|ensures\|invariant\|decreases\)\*\?\%(\s\+\k\+\)\?\s*{/ end=/}\ze\s*\%($\|;\)/ contains=@antt

highlight default link rattleClause PreProc
highlight default link rattleUse Include
highlight default link rattlePath Identifier

let b:current_syntax = 'rattle'
