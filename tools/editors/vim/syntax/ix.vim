" Syntax of session scripts (docs/SCRIPT.md). To use it: set runtimepath+=.../tools/editors/vim, or copy both folders to ~/.vim.
if exists("b:current_syntax")
  finish
endif
syntax case match

" What a script refuses: a space that stands first, last or doubled, a first line that is no version, an unknown first word.
syntax match ixWrong /^\S\+/
syntax match ixWrong /\%1l^.*$/
syntax match ixWrong /^ \+\| \+$\|  \+/
syntax match ixComment /^#.*$/ contains=@Spell
syntax match ixVersion /\%1l^ix [12]$/

syntax match ixHeader /^\(limit\|fs\|proc\|dir\|file\)\>/
syntax match ixPart /^\(phase$\|lane\>\)/
syntax match ixCommand /^\(ceiling\|chdir\|close\|copy\|create\|cut\|droplic\|dup\|exec\|exit\|fork\|freeze\|freezeself\|grant\|labelof\|link\|list\|login\|mkdir\|open\|pex\|pipe\|priv\|read\|readlog\|rmdir\|seek\|self\|setlabel\|setpriv\|setself\|stat\|thaw\|thawself\|unlink\|unpex\|wait\|write\)\>/

" The policy is one JSON text.
syntax match ixPolicy /^policy\>.*$/ contains=ixPolicyWord,ixPolicyText,ixPolicyValue
syntax match ixPolicyWord /^policy\>/ contained
syntax match ixPolicyText /"\([^"\\]\|\\.\)*"/ contained
syntax match ixPolicyValue /\<\(true\|false\)\>/ contained

syntax match ixPath / \zs\/\S*/
syntax match ixLabel / \zs\(\*\|-\|[0-9]\+\(-[0-9]\+\)\?\(,[0-9]\+\(-[0-9]\+\)\?\)*\)\ze\( \|$\)/
syntax match ixPrivileges / \zsD\?P\?C\?T\?L\?\ze\( \|$\)/
syntax match ixWord / \zs\(r\|w\|rw\|free\|frozen\|all\|none\|procs\|opens\|pipes\|names\|log\)\ze\( \|$\)/
syntax match ixAs / \zsas\ze /
syntax match ixPayload / \zsx\(\x\x\)*\ze\( \|$\)/
syntax match ixPayload / \zs\(0\|[1-9][0-9]*\)\*\x\x\ze\( \|$\)/
syntax region ixText start=/ \@<="/ skip=/\\./ end=/"/ oneline contains=ixEscape,ixBadEscape
syntax match ixBadEscape /\\./ contained
syntax match ixEscape /\\\([\\"n]\|x\x\x\)/ contained

highlight default link ixWrong Error
highlight default link ixComment Comment
highlight default link ixVersion PreProc
highlight default link ixHeader Structure
highlight default link ixPart Label
highlight default link ixCommand Statement
highlight default link ixPolicyWord Structure
highlight default link ixPolicyText String
highlight default link ixPolicyValue Boolean
highlight default link ixPath Identifier
highlight default link ixLabel Number
highlight default link ixPrivileges Special
highlight default link ixWord Type
highlight default link ixAs Keyword
highlight default link ixPayload String
highlight default link ixText String
highlight default link ixEscape SpecialChar
highlight default link ixBadEscape Error

let b:current_syntax = "ix"
