" Vim compiler file for the module language of fing: `:make` shows the file with fing-show and goes to the place where it
" is refused. The name of the program is g:fing_show, if it is set before `:compiler fing`.
if exists("current_compiler")
  finish
endif
let current_compiler = "fing"

let s:cpo_save = &cpo
set cpo&vim

" The whole path: one that began with `-` would be taken for a flag.
let s:program = escape(shellescape(expand(get(g:, "fing_show", "fing-show"), 1)), "%#")
execute "CompilerSet makeprg=" . escape(s:program . " %:p:S", " \t\\|\"")

" A refusal: its title, its place, a margin, the line and the mark under it, and the sentence. Other lines stay in the list
" as they are: they name no place. The column is %v, since fing-show counts columns of the screen, with a tab stop every 8.
CompilerSet errorformat=
      \%Eerror:\ %m,
      \%C\ -->\ %f:%l:%v,
      \%C%*[\ ]\|%.%#,
      \%C%*[0-9]\ \|%.%#,
      \%Z%m

let &cpo = s:cpo_save
unlet s:cpo_save s:program
