" Files of equations for `alg`: declarations, goals, answers.
" Copy the folders ftdetect and syntax into ~/.vim.
if exists('b:current_syntax')
  finish
endif

syntax keyword algDeclaration ring domain field semiring char hom additive var hyp
syntax keyword algGoal goal by nsatz using power limit
syntax keyword algAnswer proved no at and if zero denominator none up to gave after range degree atoms
syntax keyword algCertificate version line step minus over
syntax match algNumeral '\<\d\+'
syntax match algSign '<>\|->\|[.:,=()+*/^-]'
syntax match algComment '#.*$'

" a name may go on with apostrophes
setlocal iskeyword+='

highlight default link algDeclaration Type
highlight default link algGoal Statement
highlight default link algAnswer Special
highlight default link algCertificate PreProc
highlight default link algNumeral Number
highlight default link algSign Operator
highlight default link algComment Comment

let b:current_syntax = 'alg'
