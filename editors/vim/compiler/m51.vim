" Faults of m51, `main.a51(3): E7`; of m51 expand; and the places of events that m51 where writes.
if exists('current_compiler')
  finish
endif
let current_compiler = 'm51'
CompilerSet makeprg=make
" What the script says of itself names no place.
CompilerSet errorformat=%-Gm51:%.%#
CompilerSet errorformat+=%f(%l):\ %m
CompilerSet errorformat+=%*[\ ]%*[A-Z]\ %*[0-9A-F]\ is\ %f(%l)%m
CompilerSet errorformat+=%-G%.%#
